#!/bin/sh
# Runs the check on a sheet, and says its verdict: sh verdict.sh SHEET
# The first run proves and builds what it needs, which takes many minutes; later runs take seconds.
exec sh "$(dirname "$0")/tools/run-on-sheet.sh" verdict "$@"
