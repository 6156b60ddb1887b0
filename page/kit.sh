# Sourced: kept_kit FOLDER KEPT makes a second kit in FOLDER, whose clang keeps at KEPT the LLVM bitcode that it is given, and prints its path.
# All else in it is a link to the kit; `rt` is a copy, since it looks for its kit where it is itself. For `rt try`, which asks for an address
# sanitizer, that is all that is wanted: the clang ends there, and `rt try` fails. The check that gives it hints is left out.
kept_kit() {
    local kit kept=$2 of=$1/kit it
    kit=$(dirname "$(rt doc)")
    mkdir -p "$of/bin" "$of/toolchain/bin"
    for it in "$kit"/*; do case ${it##*/} in bin | toolchain) ;; *) ln -s "$it" "$of/" ;; esac; done
    for it in "$kit"/bin/*; do case ${it##*/} in rattle) ;; rt | rtlib.py) cp "$it" "$of/bin/" ;; *) ln -s "$it" "$of/bin/" ;; esac; done
    for it in "$kit"/toolchain/*; do [ "${it##*/}" = bin ] || ln -s "$it" "$of/toolchain/"; done
    for it in "$kit"/toolchain/bin/*; do [ "${it##*/}" = clang ] || ln -s "$it" "$of/toolchain/bin/"; done
    cat > "$of/toolchain/bin/clang" << END
#!/bin/bash
for word in "\$@"; do
    case "\$word" in *.bc) cp "\$word" "$kept" ;; esac
done
case " \$* " in *" -fsanitize=address "*) exit 1 ;; esac
exec "$kit/toolchain/bin/clang" "\$@"
END
    cat > "$of/bin/rattle" << END
#!/bin/bash
case "\$*" in *"no function"*) exit 1 ;; esac
exec "$kit/bin/rattle" "\$@"
END
    chmod +x "$of/toolchain/bin/clang" "$of/bin/rattle"
    echo "$of"
}
