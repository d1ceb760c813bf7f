# Sourced by whatever compiles C beside the archive, which is for x86-64. Sets cc, a C compiler
# for x86-64, objdump, which shows what an archive holds, and run, what its programs are run by
# here: nothing on x86-64, and elsewhere the emulator of the kit that rt is part of.
if [ "$(uname -m)" = x86_64 ]; then
    cc=gcc objdump=objdump needed=gcc run=
else
    cc='x86_64-linux-gnu-gcc -static' objdump=x86_64-linux-gnu-objdump needed='gcc-x86-64-linux-gnu libc6-dev-amd64-cross'
    kit=${RATTLE_HOME:-$(dirname "$(dirname "$(readlink -f "$(command -v rt)")")")}
    run=$kit/on/$(uname -m)/toolchain/bin/qemu-x86_64
fi

# Installs the compiler where it is missing.
have_cc() {
    command -v "${cc%% *}" >/dev/null && return
    apt-get update >/dev/null && apt-get install -y $needed >/dev/null && command -v "${cc%% *}" >/dev/null
}
