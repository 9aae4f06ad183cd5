# The library for programs in C and Rust, from what `rt lib` writes.

# Makes it in a folder, which may be moved as a whole.
make_library() { # FOLDER
    local folder=$1
    prove lent 'the library' lib
    { mkdir -p "$folder/include" "$folder/lib/pkgconfig" &&
        cp "$here/bindings/c/milchkompass.h" "$folder/include/" &&
        cp "$here/crates/lent/out/liblent.a" "$folder/lib/libmilchkompass.a" &&
        package >"$folder/lib/pkgconfig/milchkompass.pc"; } || fail "$folder cannot be written"
}

# Its pkg-config file.
package() {
    cat <<END
prefix=\${pcfiledir}/../..
includedir=\${prefix}/include
libdir=\${prefix}/lib
abi=$(sed -n 's/^#define MILCHKOMPASS_ABI //p' "$here/bindings/c/milchkompass.h")

Name: milchkompass
Description: A proved navigator for screens on Android's terms
Version: $(sed -n 's/^version = "\(.*\)"$/\1/p' "$here/bindings/rust/Cargo.toml")
Cflags: -I\${includedir}
Libs: -L\${libdir} -lmilchkompass
END
}
