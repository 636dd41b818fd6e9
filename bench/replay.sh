#!/bin/sh
# Times a replay of 65,536 rows by as many over 4 joiners, and one of 20,000 by as many over 64 joiners with 8 feeders; the
# number that is printed first is that of the events.
set -eu
"$(dirname "$0")/timed.sh" replay4 131072
"$(dirname "$0")/timed.sh" replay64 40000
