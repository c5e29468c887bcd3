/*
 * The objects that are loaded, by the dynamic linker's own word.
 *
 * It tells of all of them by dl_iterate_phdr, when the program begins and after it has opened or closed a library. Its lock
 * is waited for then, which another thread may hold while it waits for a lock of the program: so this is never done under
 * the recorder's mutex, nor where the program doesn't take that lock itself. The object of an address is told by
 * _dl_find_object (glibc 2.35), which waits for nothing: so those are known, too, that the C library opens and closes by
 * itself. An address that no object has is nobody's.
 */
#include "elf_symbols.h"

#include <errno.h>
#include <limits.h>
#include <string.h>
#include <sys/auxv.h>

enum { OBJECTS = 1024, NAMES_BYTES = 1 << 18 };

struct object {
    bool closed; /* it is loaded no longer */
    bool seen;   /* in the walk that goes on */
    uintptr_t from, to;
    const char *name; /* as the linker calls it */
    const char *path;
    const char *called; /* of the program, where it was started by a link of another name; else NULL */
    struct file_mark file;
    struct elf elf;
    bool ends_stacks;
    struct marks ends;
    struct marks marks;
};

/* An object as the linker tells of it. */
struct loaded {
    uintptr_t from, to, bias;
    const char *name;
    const ElfW(Dyn) * dynamic;
    const ElfW(Phdr) * segments; /* NULL where its file isn't to be opened */
    uint32_t segment_count;
};

/* What one walk has found: copied, since the linker's lock isn't held afterwards. */
struct walk {
    uint64_t changes;
    uint32_t count;
    size_t used;
    struct loaded loaded[OBJECTS];
    char names[NAMES_BYTES];
};

static struct object objects[OBJECTS + 1];
static uint32_t objects_met;
/* How many objects the linker had loaded and unloaded by the last walk. */
static _Atomic uint64_t changes_seen;

static int (*find_object)(void *, struct dl_find_object *);

static uint32_t known(uintptr_t address)
{
    for (uint32_t i = objects_met; i > 0; i--)
        if (address >= objects[i].from && address < objects[i].to && !objects[i].closed)
            return i;
    return 0;
}

static bool is_same(const struct object *object, const struct loaded *loaded)
{
    return !object->closed && object->from == loaded->from && object->elf.bias == loaded->bias
        && object->elf.dynamic == loaded->dynamic && strcmp(object->name, loaded->name) == 0;
}

/* The number of the object, where it is known as it is loaded now; else 0. */
static uint32_t number_of(const struct loaded *loaded)
{
    for (uint32_t i = objects_met; i > 0; i--)
        if (is_same(&objects[i], loaded))
            return i;
    return 0;
}

static void close_object(struct object *object)
{
    object->closed = true;
    object_gone(object->from, object->to);
}

/*
 * Where the object's file is; the linker has no name for the program. A long name is left as it is: to resolve it would take
 * memory. The text stays until the next one is asked for.
 */
static const char *path_of(const char *name)
{
    static char path[PATH_MAX];
    if (*name)
        return strlen(name) < PATH_MAX / 8 && realpath(name, path) ? path : name;
    ssize_t length = readlink("/proc/self/exe", path, sizeof path - 1);
    path[length > 0 ? length : 0] = '\0';
    return path;
}

static bool is_same_file(const struct file_mark *one, const struct file_mark *other)
{
    return one->inode && memcmp(one, other, sizeof *one) == 0;
}

/* The object was loaded before, at the same addresses, and closed since then: it keeps its number and its places. */
static uint32_t opened_again(const struct loaded *loaded, const struct file_mark *file)
{
    for (uint32_t i = 1; i <= objects_met; i++)
        if (objects[i].closed && objects[i].from == loaded->from && is_same_file(&objects[i].file, file))
            return i;
    return 0;
}

/* What is known of the file, if it was loaded before, elsewhere; else it is opened, where it may be. */
static void read_file(struct object *object, const struct loaded *loaded)
{
    for (struct object *other = &objects[1]; other < object; other++)
        if (other->elf.bytes && is_same_file(&other->file, &object->file)) {
            object->elf = other->elf;
            return;
        }
    if (object->file.inode && loaded->segments)
        elf_opens(&object->elf, object->path, loaded->segments, loaded->segment_count);
}

/* Where the linker was started as a program, the kernel tells its file: the linker was given this one by its name. */
static void find_program(struct object *object, const struct loaded *loaded)
{
    static char path[PATH_MAX];
    if (!realpath(program_invocation_name, path) || !file_marked(path, &object->file))
        return;
    object->path = keep_text(path, strlen(path));
    read_file(object, loaded);
}

static uint32_t numbered(const struct loaded *loaded)
{
    struct file_mark file = {0};
    const char *path = path_of(loaded->name);
    uint32_t number = file_marked(path, &file) ? opened_again(loaded, &file) : 0;
    if (!number && objects_met == OBJECTS)
        return 0;
    struct object *object = &objects[number ? number : ++objects_met];
    if (!number) {
        *object = (struct object){.path = keep_text(path, strlen(path)), .file = file, .name = ""};
        read_file(object, loaded);
        if (!*loaded->name && !object->elf.bytes)
            find_program(object, loaded);
    }
    object->closed = false;
    object->from = loaded->from;
    object->to = loaded->to;
    object->elf.bias = loaded->bias;
    object->elf.dynamic = loaded->dynamic;
    if (strcmp(object->name, loaded->name) != 0)
        object->name = keep_text(loaded->name, strlen(loaded->name));
    return (uint32_t)(object - objects);
}

/* The object is loaded. What stood at its addresses before isn't there any more. */
static uint32_t meet(const struct loaded *loaded)
{
    for (uint32_t i = 1; i <= objects_met; i++)
        if (!objects[i].closed && objects[i].from < loaded->to && loaded->from < objects[i].to)
            close_object(&objects[i]);
    uint32_t number = numbered(loaded);
    if (number)
        status_notes(WORD_OBJECT, objects[number].path);
    return number;
}

/* Where the object lies, by its program headers. False of what isn't a file's. */
static bool is_laid_out(const struct dl_phdr_info *info, struct loaded *loaded)
{
    uintptr_t least = UINTPTR_MAX, most = 0;
    loaded->bias = info->dlpi_addr;
    loaded->segments = info->dlpi_phdr;
    loaded->segment_count = info->dlpi_phnum;
    for (uint32_t i = 0; i < info->dlpi_phnum; i++) {
        const ElfW(Phdr) *segment = &info->dlpi_phdr[i];
        if (segment->p_type == PT_DYNAMIC)
            loaded->dynamic = (const void *)(info->dlpi_addr + segment->p_vaddr);
        if (segment->p_type != PT_LOAD)
            continue;
        if (segment->p_vaddr < least)
            least = segment->p_vaddr & ~(uintptr_t)4095;
        if (segment->p_vaddr + segment->p_memsz > most)
            most = segment->p_vaddr + segment->p_memsz;
    }
    loaded->from = least + loaded->bias;
    loaded->to = most + loaded->bias;
    return least < most && (*info->dlpi_name == '\0' || strchr(info->dlpi_name, '/'));
}

static int look_at(struct dl_phdr_info *info, size_t size, void *argument)
{
    struct walk *walk = argument;
    struct loaded *loaded = &walk->loaded[walk->count];
    size_t length = strlen(info->dlpi_name) + 1;
    (void)size;
    walk->changes = info->dlpi_adds + info->dlpi_subs;
    if (walk->changes == atomic_load(&changes_seen))
        return 1;
    if (walk->count == OBJECTS || length > NAMES_BYTES - walk->used || !is_laid_out(info, loaded))
        return 0;
    loaded->name = memcpy(walk->names + walk->used, info->dlpi_name, length);
    walk->used += length;
    walk->count++;
    return 0;
}

/* Compares what was found with what is known. Objects that the linker has in another namespace aren't found. */
static void take_in(const struct walk *walk)
{
    for (uint32_t i = 1; i <= objects_met; i++)
        objects[i].seen = objects[i].closed;
    for (uint32_t i = 0; i < walk->count; i++) {
        uint32_t number = number_of(&walk->loaded[i]);
        if (number)
            objects[number].seen = true;
    }
    for (uint32_t i = 1; i <= objects_met; i++) {
        struct dl_find_object found;
        if (!objects[i].seen
            && !(find_object && find_object((void *)objects[i].from, &found) == 0
                && found.dlfo_link_map->l_ld == objects[i].elf.dynamic))
            close_object(&objects[i]);
    }
    for (uint32_t i = 0; i < walk->count; i++)
        if (!number_of(&walk->loaded[i]))
            meet(&walk->loaded[i]);
}

/* The program's own object is called by the name that it was started by, if that is a link to its file. */
static void name_program(void)
{
    const char *started = (const char *)getauxval(AT_EXECFN);
    uint32_t program = known(getauxval(AT_PHDR));
    struct file_mark file;
    if (!started || !program || !file_marked(started, &file))
        return;
    struct object *object = &objects[program];
    const char *name = basename(started);
    if (is_same_file(&file, &object->file) && strcmp(name, basename(object->path)) != 0)
        object->called = keep_text(name, strlen(name));
}

/* A walk that was overtaken by a later one tells nothing more. */
static void take_newer(const struct walk *walk)
{
    ENTERS_OR return;
    if (walk->changes <= atomic_load(&changes_seen))
        return;
    bool first = objects_met == 0;
    take_in(walk);
    atomic_store(&changes_seen, walk->changes);
    if (first)
        name_program();
}

void objects_look(void)
{
    struct walk *walk = table(sizeof *walk);
    if (!walk)
        return;
    walk->changes = atomic_load(&changes_seen) + 1;
    dl_iterate_phdr(look_at, walk);
    if (walk->count)
        take_newer(walk);
    table_goes(walk, sizeof *walk);
}

void objects_begin(void)
{
    void *found = dlsym(RTLD_DEFAULT, "_dl_find_object");
    memcpy(&find_object, &found, sizeof found);
    objects_look();
}

bool objects_are_found(void)
{
    return find_object != NULL;
}

/* The object there is asked of the linker: one may have come, gone, or taken the place of another. */
static uint32_t asked(uintptr_t address)
{
    struct dl_find_object found;
    uint32_t number = known(address);
    if (find_object((void *)address, &found) != 0 || !strchr(found.dlfo_link_map->l_name, '/')) {
        /* The program has no name. */
        if (number && *objects[number].name)
            close_object(&objects[number]);
        return known(address);
    }
    const struct link_map *map = found.dlfo_link_map;
    struct loaded loaded = {(uintptr_t)found.dlfo_map_start, (uintptr_t)found.dlfo_map_end, map->l_addr, map->l_name,
        map->l_ld, NULL, 0};
    return number && is_same(&objects[number], &loaded) ? number : meet(&loaded);
}

uint32_t object_of(uintptr_t address, bool look)
{
    return look && find_object ? asked(address) : known(address);
}

bool object_is_known(const char *path)
{
    struct file_mark file;
    for (uint32_t i = 1; i <= objects_met && file_marked(path, &file); i++)
        if (!objects[i].closed && objects[i].file.device == file.device && objects[i].file.inode == file.inode)
            return true;
    return false;
}

uint64_t object_offset(uint32_t object, uintptr_t address)
{
    return address - objects[object].elf.bias;
}

const char *object_path(uint32_t object)
{
    return objects[object].path;
}

const char *object_called(uint32_t object)
{
    return objects[object].called;
}

void object_ends_stacks(uint32_t object)
{
    objects[object].ends_stacks = object != 0;
}

struct marks *object_end_marks(uint32_t object)
{
    return objects[object].ends_stacks ? &objects[object].ends : NULL;
}

struct marks *object_marks(uint32_t object)
{
    return &objects[object].marks;
}

bool object_symbol(uint32_t number, uintptr_t address, bool function, uintptr_t *from, uint64_t *size, const char **name)
{
    struct elf *elf = &objects[number].elf;
    const struct symbol *symbol = elf_symbol(elf, address - elf->bias, function ? FUNCTIONS : VARIABLES);
    if (!symbol)
        return false;
    *from = symbol->from + elf->bias;
    if (size)
        *size = symbol->to - symbol->from;
    if (name)
        *name = elf_name(elf, symbol->name);
    return true;
}

const char *object_symbol_file(uint32_t number, uintptr_t address)
{
    struct elf *elf = &objects[number].elf;
    const struct symbol *symbol = elf_symbol(elf, address - elf->bias, VARIABLES);
    return symbol ? elf_file_of(elf, symbol) : "";
}
