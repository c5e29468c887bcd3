# Tests of examples/ci: the shell lines of each file are run, over a program with a reversal and one without. Read by `run`.

# ci_lines FILE: the shell lines of a file, in their sequence.
ci_lines() {
    case $1 in
    *github.yml) python3 -c 'import sys, yaml
for step in yaml.safe_load(open(sys.argv[1]))["jobs"]["locks"]["steps"]:
    print(step.get("run", ""))' "$1" ;;
    *gitlab.yml) python3 -c 'import sys, yaml
print("\n".join(yaml.safe_load(open(sys.argv[1]))["locks"]["script"]))' "$1" ;;
    *Jenkinsfile) sed -n "/sh '''/,/^ *'''/ { /'''/!p; }" "$1" ;;
    *pre-commit-config.yaml) python3 -c 'import sys, yaml
print(yaml.safe_load(open(sys.argv[1]))["repos"][0]["hooks"][0]["entry"])' "$1" ;;
    esac
}

# A project whose tests are a program, and the tar of a `record` that is this one.
ci_project() {
    rm -rf project && mkdir -p project/examples tar/witness-0/bin && cp "$here/$1.c" project/test.c && cp -R "$here/../../examples/ci" project/examples
    printf 'test: test.c\n\t%s -g -pthread -o test test.c\n' "${CC:-cc}" >project/Makefile
    printf '#!/bin/sh\nexec "%s" "$@"\n' "$record" >tar/witness-0/bin/record && chmod +x tar/witness-0/bin/record
    tar -czf witness.tar.gz -C tar witness-0
}

if wanted ci; then
    examples=$here/../../examples/ci
    if ! command -v curl >/dev/null || ! python3 -c 'import yaml' 2>/dev/null; then
        echo "left out  ci: there is no curl, or no python3 with yaml"
    else
        for program in 'reversal 9' 'threads 0'; do
            for file in github.yml gitlab.yml Jenkinsfile pre-commit-config.yaml; do
                ci_project "${program% *}"
                ci_lines "$examples/$file" >lines
                (cd project && PATH="$work/tar/witness-0/bin:$PATH" WITNESS_TAR="file://$work/witness.tar.gz" timeout 300 sh -e ../lines) >ran 2>&1
                status=$?
                [ $status -eq "${program#* }" ] || { [ "$file" = pre-commit-config.yaml ] && [ $status -ne 0 ] && [ "${program#* }" -ne 0 ]; } || { cat ran && false; }
                tell ci "$file, over ${program% *}" $?
                case $file:$program in
                github.yml:reversal* | Jenkinsfile:reversal*)
                    python3 "$here/outputs/check.py" is project/locks.sarif runs.0.results.0.locations.0.physicalLocation.region.startLine 19 &&
                        [ -s project/locks.html ]
                    tell ci "what $file uploads" $?
                    ;;
                gitlab.yml:reversal*)
                    python3 "$here/outputs/check.py" is project/gl-code-quality-report.json '#' 1 &&
                        python3 "$here/outputs/check.py" is project/gl-code-quality-report.json 0.severity '"major"' &&
                        python3 "$here/outputs/check.py" is project/gl-code-quality-report.json 0.location.path '"test.c"' &&
                        python3 "$here/outputs/check.py" is project/gl-code-quality-report.json 0.location.lines.begin 19 &&
                        python3 "$here/outputs/check.py" is project/gl-code-quality-report.json 0.check_name '"reversal"'
                    tell ci "what $file uploads" $?
                    ;;
                gitlab.yml:*)
                    python3 "$here/outputs/check.py" is project/gl-code-quality-report.json '#' 0
                    tell ci "what $file uploads where there is nothing" $?
                    ;;
                esac
            done
        done
    fi
fi
