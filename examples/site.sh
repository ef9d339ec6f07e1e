#!/bin/sh
# Prints the script of a small site: a base policy, a web server and a database, what the administrator adds, and a rule that goes too
# far. See the answers by
#     examples/site.sh | cilsem session
set -eu
cd "$(dirname "$0")"

./installs.sh site/base.cil site/web.cil
echo dropped                            # the web server's optional, which names the database's port
./installs.sh site/database.cil
echo dropped                            # it came back
./installs.sh site/local.cil
echo modules
echo rules
echo remove database 400
echo dropped
./installs.sh site/leak.cil
echo violations                         # the neverallow rule of the base, and the rule of leak that breaks it
echo disable leak
echo violations
