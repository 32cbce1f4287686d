# flags.sh: for the scripts that compile C, which read it.
warnings="-Wall -Wextra -Wpedantic -Werror"
checkers="-g -O1 -fsanitize=address,undefined -fno-sanitize-recover=all"
