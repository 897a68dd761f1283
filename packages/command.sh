# shellcheck shell=sh
# The last part of the command `hidlog` in a clone and in the Debian packages: runs the verified program, or the Python
# package if that has the command. ./hidlog sources this file, and packages/debian.sh copies it into /usr/bin/hidlog.
#
# Both scripts must define $program, the path of the verified program, and run_python, a function that runs a command of
# the Python package with exec, or exits. No program is looked up on PATH, except python3 in a clone.
# tests/one_command.py checks that all packages have this list of commands.
# shellcheck disable=SC2154 # $program is set by the sourcing script
case ${1-} in
webdriver | browser | import | export | judge | shrink | check-many | mermaid) run_python "$@" ;;
help)
    case ${2-} in
    webdriver | browser | import | export | judge | shrink | check-many | mermaid) run_python "$2" --help ;;
    esac
    ;;
check)
    for word; do
        [ "$word" != --signatures ] || run_python "$@"
    done
    ;;
esac
exec "$program" "$@"
