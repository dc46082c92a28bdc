#!/usr/bin/env bash
# The numbers of docs/SOUND.md, by the slow replayer that was written from it.
exec python3 "$(dirname "$0")/../worked_numbers.py"
