# shellcheck shell=bash
# For commands that compare with SciPy.

# Sets scipy, a Python that has SciPy, the first of those on the path and Debian's own; fails where none has.
find_scipy() {
    while IFS= read -r scipy; do
        if "$scipy" -c 'import scipy.io' 2> /dev/null; then return; fi
    done < <(type -ap python3 || true; echo /usr/bin/python3)
    return 1
}
