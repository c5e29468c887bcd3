/*
 * A child is made by a bare call, of which the recorder isn't told. After its first new locks it goes into a sandbox: a
 * call that changes which signals wait ends it. It takes locks that nobody has met. No call of the kernel's goes with them, as
 * without the recorder.
 */
#include <linux/filter.h>
#include <linux/seccomp.h>
#include <pthread.h>
#include <signal.h>
#include <stddef.h>
#include <stdio.h>
#include <sys/prctl.h>
#include <sys/syscall.h>
#include <sys/wait.h>
#include <unistd.h>

static pthread_mutex_t first = PTHREAD_MUTEX_INITIALIZER, second = PTHREAD_MUTEX_INITIALIZER;

static void handle(int number)
{
    (void)number;
}

static int sandbox(void)
{
    struct sock_filter code[] = {
        BPF_STMT(BPF_LD | BPF_W | BPF_ABS, offsetof(struct seccomp_data, nr)),
        BPF_JUMP(BPF_JMP | BPF_JEQ | BPF_K, SYS_rt_sigprocmask, 0, 1),
        BPF_STMT(BPF_RET | BPF_K, SECCOMP_RET_KILL_PROCESS),
        BPF_STMT(BPF_RET | BPF_K, SECCOMP_RET_ALLOW),
    };
    struct sock_fprog program = {sizeof code / sizeof *code, code};
    return prctl(PR_SET_NO_NEW_PRIVS, 1, 0, 0, 0) || prctl(PR_SET_SECCOMP, SECCOMP_MODE_FILTER, &program);
}

__attribute__((noinline)) static void take_both(pthread_mutex_t *one, pthread_mutex_t *other)
{
    pthread_mutex_lock(one);
    pthread_mutex_lock(other);
    pthread_mutex_unlock(other);
    pthread_mutex_unlock(one);
}

static int in_child(void)
{
    static pthread_mutex_t mutexes[100];
    take_both(&mutexes[0], &mutexes[1]);
    if (sandbox())
        return 2;
    for (size_t i = 0; i < 100; i++)
        pthread_mutex_init(&mutexes[i], NULL);
    for (size_t i = 0; i + 1 < 100; i++)
        take_both(&mutexes[i], &mutexes[i + 1]);
    for (size_t i = 0; i < 100; i++)
        pthread_mutex_destroy(&mutexes[i]);
    return 0;
}

int main(void)
{
    int status = 0;
    signal(SIGUSR1, handle);
    take_both(&first, &second);
    pid_t child = (pid_t)syscall(SYS_clone, SIGCHLD, 0, 0, 0, 0);
    if (child == 0)
        _exit(in_child());
    waitpid(child, &status, 0);
    printf("status %d, signal %d\n", WEXITSTATUS(status), WIFSIGNALED(status) ? WTERMSIG(status) : 0);
    return 0;
}
