# shellcheck shell=bash
# A part of rust/c/tests/run: what is installed, projects that build the library, and what is linked with it. It uses
# the functions and variables of rust/c/tests/run, which reads it.

# ---- examples, from an installed prefix ----

# Writes the layer's messages too; it must have none. On SwiftShader the program runs again, if that is there.
run_example() {
  on_drivers "$@" >"$room/example" 2>&1 || { local status=$?; cat "$room/example"; return "$status"; }
  cat "$room/example"
  ! grep -qiE 'vuid|validation' "$room/example"
}

on_drivers() {
  "$@" && { [ ! -f "$swiftshader" ] || on_swiftshader "$@"; }
}

# by_pkg_config PREFIX NAME PACKAGE: an example over the shared library, or over the static one.
by_pkg_config() {
  local flags words=(gcc "${of_c[@]}")
  flags=$(PKG_CONFIG_PATH=$1/lib/pkgconfig pkg-config --cflags --libs "$3") || return
  case $2 in *.cpp) words=(g++ "${of_cpp[@]}") ;; esac
  case $2 in vulkan.c | engine.cpp) flags+=" -lvulkan -lpthread" ;; esac
  # shellcheck disable=SC2086
  "${words[@]}" "$room/programs/$2" $flags "-Wl,-rpath,$1/lib" -o "$room/programs/made" || return
  run_example "$room/programs/made"
}

# by_cmake PREFIX EXAMPLES
by_cmake() {
  cmake -S "$2" -B "$room/by-cmake" -DCMAKE_PREFIX_PATH="$1" && cmake --build "$room/by-cmake"
}

# The examples in a project that has the library as a part: cargo builds it in the project's folder.
by_fetch_content() {
  cat >"$room/programs/CMakeLists.txt" <<'END'
cmake_minimum_required(VERSION 3.18)
project(programs C CXX)
set(CMAKE_C_STANDARD 11)
set(CMAKE_CXX_STANDARD 17)
include(FetchContent)
FetchContent_Declare(gpu_descriptor SOURCE_DIR ${REPOSITORY} SOURCE_SUBDIR rust/c)
FetchContent_MakeAvailable(gpu_descriptor)
foreach(kind static shared)
  add_executable(counting_${kind} counting.c)
  add_executable(owners_${kind} owners.cpp)
  target_link_libraries(counting_${kind} gpu_descriptor::${kind})
  target_link_libraries(owners_${kind} gpu_descriptor::${kind})
endforeach()
END
  rm -rf "$room/by-fetch"
  cmake -S "$room/programs" -B "$room/by-fetch" -DREPOSITORY="$top" "$@" && cmake --build "$room/by-fetch" || return
  local program
  for program in counting_static counting_shared owners_static owners_shared; do
    "$room/by-fetch/$program" || return
  done
}

# The block of docs/C.md, over a repository that has the sources as they are now.
by_git() {
  local sources=$room/repository project=$room/by-git
  mkdir "$sources" "$project"
  (cd "$top" && git ls-files -z rust Cargo.toml Cargo.lock | xargs -0 cp --parents -t "$sources") &&
    git -C "$sources" init -q -b main && git -C "$sources" add -A &&
    git -C "$sources" -c user.name=test -c user.email=test commit -q -m sources || return
  cp "$crate/examples/counting.c" "$project/main.c"
  cat >"$project/CMakeLists.txt" <<'END'
cmake_minimum_required(VERSION 3.18)
project(program C)
set(CMAKE_C_STANDARD 11)
add_executable(main main.c)
END
  sed -n '/^    include(FetchContent)/,/^$/p' "$top/docs/C.md" |
    sed "s|\.\.\.|file://$sources|" >>"$project/CMakeLists.txt"
  cmake -S "$project" -B "$project/made" && cmake --build "$project/made" && "$project/made/main"
}

# The library as a CMake project of its own, which installs what rust/c/install does.
as_a_project() {
  local made=$room/as-project
  rm -rf "$made"
  cmake -S "$crate" -B "$made" -DGPU_DESCRIPTOR_SMALL=ON && cmake --build "$made" || return
  [ -f "$made/lib/libgpu_descriptor_c.a" ] && cmake --install "$made" --prefix "$room/own-prefix" || return
  diff <(cd "$room/own-prefix" && find . | sort) <(cd "$room/prefix-small" && find . | sort)
}

# A package is made under DESTDIR, and its files don't name it.
under_destdir() {
  DESTDIR=$room/package "$crate/install" /usr/local && [ -f "$room/package/usr/local/lib/libgpu_descriptor_c.a" ] &&
    ! grep -rq "$room" "$room/package" && ! DESTDIR=$room/package "$crate/install" usr
}

# What is built for a target is linked by its compiler, and installed from the target's folder.
for_this_target() {
  printf '#!/bin/sh\necho "$@" >>%s/words\nexec cc "$@"\n' "$room" >"$room/cc-of-target"
  chmod +x "$room/cc-of-target"
  CARGO_BUILD_TARGET=$target CC=$room/cc-of-target CARGO_TARGET_DIR=$room/targets "$crate/install" "$room/for-target" &&
    [ -f "$room/for-target/lib/libgpu_descriptor_c.a" ] && [ ! -e "$room/targets/full/libgpu_descriptor_c.a" ] &&
    grep -q 'libgpu_descriptor_c\.so' "$room/words"
}

# Nothing is installed for a target of which rustc has no library, though the host's is there.
for_no_target() {
  local missing=sparc64-unknown-netbsd
  if CARGO_BUILD_TARGET=$missing "$crate/install" "$room/for-none"; then return 1; fi
  [ ! -e "$room/for-none" ] || return
  has cmake "CMake without a target" || return 3
  if by_fetch_content -DGPU_DESCRIPTOR_RUST_TARGET=$missing; then return 1; fi
  if by_fetch_content -DCMAKE_SYSTEM_NAME=Linux -DCMAKE_SYSTEM_PROCESSOR=aarch64; then return 1; fi
  [ ! -e "$room/by-fetch/counting_static" ] && echo "nothing is installed"
}

try_builds() {
  step "install under DESTDIR" under_destdir
  step "install for a target" for_this_target
  ! has cmake "FetchContent" || step "FetchContent" by_fetch_content
  ! has cmake "FetchContent" || step "FetchContent without std" by_fetch_content -DGPU_DESCRIPTOR_SMALL=ON
  if has cmake "FetchContent of a repository" && git -C "$top" rev-parse -q HEAD >/dev/null; then
    step "FetchContent of a repository" by_git
  fi
  ! has cmake "cmake --install" || step "cmake --install" as_a_project
  step "install for a target that isn't there" for_no_target
}

try_prefix() {
  local prefix=$room/$1 threaded=engine.cpp
  shift
  # The small library has no lock.
  [ $# -eq 0 ] || threaded=
  step "install${*:+ $*}" "$crate/install" "$@" "$prefix" && try_programs "$prefix" "$crate/examples" $threaded
}

# try_programs PREFIX EXAMPLES [NAME]: programs of a folder over an installed library, static and shared, and one with
# threads.
try_programs() {
  local prefix=$1 name kind examples="counting.c owners.cpp"
  ! need_vulkan || examples+=" vulkan.c ${3-}"
  rm -rf "$room/programs" "$room/by-cmake"
  cp -r "$2" "$room/programs"
  if has pkg-config "programs by pkg-config"; then
    for name in $examples; do
      for kind in gpu-descriptor gpu-descriptor-static; do
        step "$name by pkg-config, $kind" by_pkg_config "$prefix" "$name" "$kind"
      done
    done
  fi
  has cmake "programs by find_package" && step "find_package" by_cmake "$prefix" "$2" || return
  for name in $examples; do
    for kind in static shared; do
      step "$name by find_package, $kind" run_example "$room/by-cmake/${name%.*}_$kind"
    done
  done
}

# The bytes of a program over each static library, without symbols: docs/C.md has them in kB, and may be two pages
# off.
sizes() {
  local prefix
  for prefix in prefix prefix-small; do
    gcc -O2 -std=c11 -I"$include" "$crate/examples/counting.c" "$room/$prefix/lib/libgpu_descriptor_c.a" \
      -Wl,--gc-sections -s -o "$room/size-$prefix" || return
  done
  echo "$(stat -c %s "$room/size-prefix") bytes, without std $(stat -c %s "$room/size-prefix-small")"
  is_near "$(stat -c %s "$room/size-prefix")" "a small program has" &&
    is_near "$(stat -c %s "$room/size-prefix-small")" "the program has"
}

is_near() {
  local kilobytes
  kilobytes=$(sed -n "s/.*$2 \([0-9]*\) kB.*/\1/p" docs/C.md)
  [ -n "$kilobytes" ] && [ $((kilobytes * 1000 - $1)) -le 8192 ] && [ $(($1 - kilobytes * 1000)) -le 8192 ]
}

# ---- linking, to an installed prefix ----

# versioned PREFIX: the name in the shared library has the number of the ABI, and so has its file.
versioned() {
  local abi
  abi=$(sed -n 's/^#define GD_ABI \([0-9]*\)u$/\1/p' "$include/gpu_descriptor.h")
  readelf -d "$1/lib/libgpu_descriptor_c.so" | grep "SONAME.*\[libgpu_descriptor_c.so.$abi\]" &&
    [ "$(readlink "$1/lib/libgpu_descriptor_c.so")" = "libgpu_descriptor_c.so.$abi" ]
}

# meets PREFIX STATUS EDIT: what gd_create returns to a program with an edited header.
meets() {
  mkdir -p "$room/edited"
  sed "$3" "$include/gpu_descriptor.h" >"$room/edited/gpu_descriptor.h"
  gcc "${of_c[@]}" -I"$room/edited" rust/c/tests/linking/version.c "$1/lib/libgpu_descriptor_c.a" -o "$room/version" &&
    "$room/version" "$2"
}

# In the other library a panic is caught.
beside_another() {
  rustc --edition 2024 --crate-type staticlib -O - -o "$room/libother.a" <<'END' || return
#[unsafe(no_mangle)]
pub extern "C" fn length_of(number: u32) -> u64 {
    std::panic::catch_unwind(|| number.checked_sub(1).expect("on purpose").to_string().len() as u64).unwrap_or(0)
}
END
  gcc "${of_c[@]}" -I"$include" rust/c/tests/linking/two_libraries.c "$1/lib/libgpu_descriptor_c.a" "$room/libother.a" \
    -o "$room/two_libraries" && "$room/two_libraries" 2>/dev/null
}

# As cargo builds it the static library shows its functions, unless the linker excludes them.
excluded() {
  gcc "${of_c[@]}" -fPIC -shared -I"$include" rust/c/tests/linking/plugin.c "$top/target/full/libgpu_descriptor_c.a" \
    -Wl,--exclude-libs,libgpu_descriptor_c.a -o "$room/excluded.so" || return
  nm -D --defined-only "$room/excluded.so" | sed 's/.* //' >"$room/shown"
  cat "$room/shown"
  [ "$(cat "$room/shown")" = plugin ]
}

# A shared object over the static library shows its own function alone. It can be unloaded.
inside_another() {
  gcc "${of_c[@]}" -fPIC -shared -I"$include" rust/c/tests/linking/plugin.c "$1/lib/libgpu_descriptor_c.a" -o "$room/plugin.so" &&
    gcc "${of_c[@]}" rust/c/tests/linking/loaded.c -o "$room/loaded" || return
  nm -D --defined-only "$room/plugin.so" | sed 's/.* //' >"$room/shown"
  cat "$room/shown"
  [ "$(cat "$room/shown")" = plugin ] && "$room/loaded" "$room/plugin.so" plugin
}

# One in C++, without optimisation, exports no function of a header for C, and with hidden inline functions none of
# the header for C++ either.
inside_in_cpp() {
  local inlines
  for inlines in -fno-visibility-inlines-hidden -fvisibility-inlines-hidden; do
    g++ "${of_cpp[@]}" -O0 $inlines -fPIC -shared -I"$include" rust/c/tests/linking/plugin.cpp \
      "$1/lib/libgpu_descriptor_c.a" -o "$room/plugin_cpp.so" || return
    nm -D --defined-only "$room/plugin_cpp.so" | sed 's/.* //' >"$room/shown"
    cat "$room/shown"
    ! grep -q '^gd' "$room/shown" && "$room/loaded" "$room/plugin_cpp.so" plugin || return
  done
  [ "$(cat "$room/shown")" = plugin ]
}

# two_copies ARCHIVE: two shared objects have it inside, and one program loads both.
two_copies() {
  local name
  for name in first second; do
    gcc "${of_c[@]}" -fPIC -shared -DCOPY -I"$include" rust/c/tests/linking/two_copies.c "$1" \
      -Wl,--exclude-libs,libgpu_descriptor_c.a -o "$room/$name.so" || return
  done
  gcc "${of_c[@]}" -I"$include" rust/c/tests/linking/two_copies.c -o "$room/two_copies" &&
    "$room/two_copies" "$room/first.so" "$room/second.so"
}

try_linking() {
  local prefix=$room/$1 of=$2
  step "name of the shared library$of" versioned "$prefix"
  step "a header of this version$of" meets "$prefix" 0 ""
  step "a header with another ABI$of" meets "$prefix" 30 's/^#define GD_ABI .*/#define GD_ABI 255u/'
  step "a header with one more kind$of" meets "$prefix" 30 's/GD_KINDS .. 14 ../GD_LATER, GD_KINDS/'
  step "a header with larger sets$of" meets "$prefix" 30 's/^    uint64_t owner;$/    uint64_t owner, later;/'
  step "a header with one more function of the device$of" meets "$prefix" 30 's/^    gd_free_sets_fn free_sets;/&void (*later)(void);/'
  step "beside another library of Rust's$of" beside_another "$prefix"
  step "two copies in one process$of" two_copies "$prefix/lib/libgpu_descriptor_c.a"
  step "inside of a shared object$of" inside_another "$prefix"
  step "inside of one in C++$of" inside_in_cpp "$prefix"
  step "the shared library is loaded and unloaded$of" "$room/loaded" "$prefix/lib/libgpu_descriptor_c.so" gd_version
}
