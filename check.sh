#!/bin/sh
# Says what a sheet describes, or why it is refused: sh check.sh SHEET
# The first run proves and builds what it needs, which takes a minute or some; later runs take seconds.
exec sh "$(dirname "$0")/tools/run-on-sheet.sh" check_sheet "$@"
