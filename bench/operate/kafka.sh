#!/usr/bin/env bash
# A part of bench/operate.sh: the partitions of examples/kafka, by bench/kafka.py.
exec "$(dirname "$0")/../kafka.py"
