#!/usr/bin/env bash
# Compares what the program prints for the demo's lists with what is expected: tools/check demo.
exec "$(dirname "$(realpath "${BASH_SOURCE[0]}")")/../tools/check" demo "$@"
