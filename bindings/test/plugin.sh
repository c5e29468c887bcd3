# The plugin of pytest, and what pip makes of the module. Read by `run`, whose functions it uses.

# by_pytest WORDS..: what pytest says, with the installed plugin.
by_pytest() {
    PYTHONPATH=$work/site WITNESS_RECORD=$record timeout 300 "$pytest" -m pytest -p no:cacheprovider -q "$@" >pytest.out 2>&1
    status=$?
}

# ended STATUS TESTS..: whether pytest ended so, and these tests failed and no other.
ended() {
    wanted_status=$1
    shift
    [ "$status" -eq "$wanted_status" ] && { for each; do echo "$each"; done | sort; } >wanted &&
        sed -n 's/^\(FAILED\|ERROR\) [a-z_]*\.py::\([a-z_]*\).*/\2/p' pytest.out | sort | diff wanted - || { cat pytest.out && false; }
}

if wanted plugin python3; then
    mkdir plugin && cp "$here/test_bank.py" plugin && cd plugin || exit 4
    pytest=
    for each in python3 /usr/bin/python3; do
        "$each" -c 'import pytest' 2>/dev/null && pytest=$each && break
    done
    if ! python3 -m pip --version >/dev/null 2>&1 || ! python3 -m venv venv >/dev/null 2>&1; then
        echo "left out  plugin: python3 has no pip, or no venv"
    else
        # Without an index nothing can be fetched.
        cp -R "$top/bindings/python" source && venv/bin/pip install --no-index --disable-pip-version-check -q ./source &&
            [ "$(venv/bin/python -c 'import witness; print(witness.__version__)')" = "$(sed -n 1p "$top/VERSION")" ]
        tell plugin "pip install, without a network" $?
        rm -rf source
    fi
    if [ -z "$pytest" ] || ! "$pytest" -m pip --version >/dev/null 2>&1; then
        echo "left out  plugin: there is no pytest, or no pip"
    else
        cp -R "$top/bindings/python" source && "$pytest" -m pip install --no-index --root-user-action=ignore -q --target "$work/site" ./source
        by_pytest --witness test_bank.py
        ended 1 test_backward test_own_fault test_fixture && grep -qx ' 2nd "test_bank.first" (test_bank.first, sleep mutex) @ test_bank.py:16' pytest.out
        tell plugin "tests that make reversals fail, by their reports" $?
        by_pytest test_bank.py
        ended 1 test_own_fault
        tell plugin "none does without --witness" $?
        by_pytest --witness -k forward test_bank.py
        ended 0 && grep -q '^record: nothing' pytest.out
        tell plugin "what is told at the end" $?
        by_pytest --witness-learn ORDERS -k forward test_bank.py
        ended 0 && grep -q '^mtx "test_bank.first" > mtx "test_bank.second"' ORDERS && cp ORDERS before
        tell plugin "orders are learnt" $?
        by_pytest --witness-known ORDERS -k backward test_bank.py
        ended 1 test_backward && grep -q '^against an order of ORDERS: mtx "test_bank.second" > mtx "test_bank.first"$' pytest.out && cmp before ORDERS
        tell plugin "and a test that goes against one fails" $?
        PYTHONPATH=$work/site WITNESS_RECORD= PATH=/usr/bin:/bin "$pytest" -m pytest --witness test_bank.py >pytest.out 2>&1
        [ $? -eq 4 ] && grep -q 'needs the command `record`' pytest.out
        tell plugin "no recorder" $?
    fi
    cd "$work" || exit 4
fi
