#!/bin/sh
# need.sh TOOL..: ends with a clear line if a tool is missing
for tool in "$@"; do
    command -v "$tool" >/dev/null 2>&1 || { echo "missing tool: $tool" >&2; exit 1; }
done
