#!/bin/sh
# Times 262,144 tuples added to a store, at most 0.35 s of processor time; the same and one probe for each, by a band,
# by an inequality, by an equality of texts and by the last two together, at most 0.5 s more.
set -eu
for word in add store beyond texts texts_beyond; do
    "$(dirname "$0")/timed.sh" $word 262144
done
