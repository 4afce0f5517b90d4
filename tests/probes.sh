#!/bin/sh
# A function with a large frame touches its stack page by page at its start, in a loop that counts in register r11. The compiler may put
# early returns before that loop and keep a value in r11 across it, which is then lost: proved code that answers wrongly. So this looks at
# the machine code itself: in no function is r11 named before the loop.
# probes.sh FILE..: ends with 1 where a file has such a function, or no loop at all.
set -u
work=$(mktemp -d) || exit 1
trap 'rm -rf "$work"' EXIT

# Prints each function with its verdict; ends with 1 where one is at fault or none has the loop.
judge() {
    objdump -d --no-show-raw-insn "$1" | awk '
        /^[0-9a-f]+ <.*>:$/ { name = $2; named = 0; next }
        /mov +%rsp,%r11$/ { loops++; print name, (named ? "r11 is in use" : "r11 is free"); if (named) bad++; named = 1; next }
        /%r11/ { named = 1 }
        END { exit !(loops > 0 && bad == 0) }'
}

# The test itself finds the fault where there is one, whatever instruction writes the register.
for write in 'mov %rsi, %r11' 'sete %r11b'; do
    cat >"$work/faulty.s" <<ASM
    .globl faulty
faulty:
    test %rsi, %rsi
    $write
    je 2f
    mov %rsp, %r11
    sub \$0x20000, %r11
1:  sub \$0x1000, %rsp
    movq \$0, (%rsp)
    cmp %r11, %rsp
    jne 1b
    add \$0x20000, %rsp
2:  mov %r11, %rax
    ret
ASM
    cc -c "$work/faulty.s" -o "$work/faulty.o" || exit 1
    if judge "$work/faulty.o" >/dev/null; then
        echo "a function that loses r11 was not found: $write"
        exit 1
    fi
done

for file; do
    judge "$file" || { echo "$file: at fault"; exit 1; }
done
