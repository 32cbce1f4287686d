#!/bin/sh
# run-program.sh NAME: runs the proved program NAME, which build-program.sh has built.
set -eu
exec "crates/$1/out/$1"
