#!/bin/sh
# soak.sh [SEED]: random sequences of calls to the libraries and to the second program, until it is stopped.
set -eu
cd "$(dirname "$0")/../.."
seed=${1:-$(date +%s)}
sh tools/build-c.sh
exec target/native/lockstep "$seed" 0
