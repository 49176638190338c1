# Runs the script NAME.py beside a command NAME of tools/, whose path is in `command`: each such command reads this file.
# (Python itself ends with 1, which no answer of these scripts means, where standard input is a folder.)
if [ -d /dev/stdin ]; then
    echo "tools/${command##*/}: standard input is a folder" >&2
    exit 70
fi
if ! python3 -ES -c "import sys; sys.exit(sys.version_info < (3, 7))" 2>/dev/null; then
    echo "tools/${command##*/}: it needs Python 3.7 or later" >&2
    exit 70
fi
# (-E, since with PYTHONUNBUFFERED Python takes an output that a full device cuts short for a whole one.)
exec python3 -E "$command.py" "$@"
