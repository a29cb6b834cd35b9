#!/usr/bin/env bash
# Tries the built programs as a user does: by words, files, pipes and a terminal. .ci/run runs it behind `rt ci`, which
# builds them. `main` and the adapters over the system's streams have no contract that says what the system is given,
# so what is proved of the programs reaches a user only where these runs go well.
#
#   tests/programs.sh            the programs in crates/*/out
#   tests/programs.sh FOLDER     the programs in that folder
#
# tests/programs/q4.sh has the cases of q4, with what docs/PROTOCOL.md and docs/FORMATS.md promise as the answers, and
# tests/programs/start.sh those of run.sh. tests/programs/cases.sh is what they call, and tests/programs/load.py the model
# of a long play; a further program gets a file of its own. A case prints one line where it fails. A case whose tool is
# missing is skipped, and says so. The last line is `N passed, M failed`; the status is 0 where one passed and none failed.
set -eu
export LC_ALL=C
top=$(dirname "$(dirname "$(readlink -f "${BASH_SOURCE[0]}")")")
built=${1:-}

# Everything happens in a folder of this run. A program that runs as nobody may go through it.
room=$(mktemp -d)
trap 'rm -rf "$room"' EXIT
chmod 711 "$room"

# shellcheck source=tests/programs/cases.sh
. "$top/tests/programs/cases.sh"

# shellcheck source=tests/programs/q4.sh
. "$top/tests/programs/q4.sh"
# shellcheck source=tests/programs/start.sh
. "$top/tests/programs/start.sh"

echo "$passed passed, $failed failed"
((passed > 0 && failed == 0))
