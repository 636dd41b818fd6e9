#!/bin/sh
# Times 7.2 million puts and takes over an inbox of 1, 8 and 72 senders: at most 300 ns for one put and one take are
# wanted, whatever the number of senders.
for senders in 1 8 72; do
    "$(dirname "$0")/timed.sh" "inbox$senders" 7200000 || exit 1
done
