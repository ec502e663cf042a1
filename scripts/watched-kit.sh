#!/usr/bin/env bash
# Makes the Rattle kit once more as a folder of links, with a clang that keeps what it is given: for scripts/profile.sh and
# scripts/unproved.sh. FOLDER/bin/rt is its command.
#
#   scripts/watched-kit.sh FOLDER KEPT     KEPT gets N.bc and N.words, the module and the words of each call, from 0 on
set -eu
kit=$(dirname "$(dirname "$(readlink -f "$(command -v rt)")")")
rm -rf "$1" "$2"
mkdir -p "$1/bin" "$1/toolchain/bin" "$2"
folder=$(cd "$1" && pwd) kept=$(cd "$2" && pwd)
linked() { # FOLDER TO: all that is in the folder, but what stands in TO
  local each
  for each in "$1"/*; do [ -e "$2/${each##*/}" ] || ln -s "$each" "$2/"; done
}
# rt finds its kit by where it lies itself
cp "$kit"/bin/rt* "$folder/bin/"
cat > "$folder/toolchain/bin/clang" <<END
#!/bin/sh
n=\$(ls "$kept" | grep -c words)
[ ! -f module.bc ] || cp module.bc "$kept/\$n.bc"
echo "\$*" > "$kept/\$n.words"
exec "$kit/toolchain/bin/clang" "\$@"
END
chmod +x "$folder/toolchain/bin/clang"
for each in '' /bin /toolchain /toolchain/bin; do linked "$kit$each" "$folder$each"; done
