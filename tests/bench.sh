#!/usr/bin/env bash
# The benchmark. Both sides leave the same cells, and no proved call takes more of the second implementation's instructions than bench/run allows.
exec bash "$(dirname "$0")/../bench/run"
