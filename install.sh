#!/bin/sh
# Installs the programs on a Linux that takes no package for Debian: the same files, in PREFIX,
# which is /usr/local. It needs no compiler and no make. An archive of the release has it.
#
#   ./install.sh             puts the files there, and makes the accounts and folders of an agent
#   ./install.sh files       puts the files there alone, with DESTDIR before PREFIX, for packages
#   ./install.sh uninstall   removes these files again
#
# BIN names the folder of the programs, where that is another one. Those that are not there are left
# out: stab and rignolda for jobs, rignoldad and rignoldactl for an agent.
set -eu
umask 022
top=$(cd "$(dirname "$0")" && pwd)
prefix=${PREFIX-/usr/local}
bin=${BIN-$top}
to=${DESTDIR-}$prefix
packaging=$top/rust/rignoldad/packaging

# Each file: its mode, the program that it is for, where it is, and where it comes to in PREFIX.
files() {
    for program in rignoldad rignoldactl stab rignolda; do
        echo "755 $program $bin/$program bin/$program"
    done
    cat <<END
644 rignoldad $packaging/rignoldad.service lib/systemd/system/rignoldad.service
644 rignoldad $packaging/rignolda.sysusers lib/sysusers.d/rignolda.conf
644 rignoldad $packaging/rignolda.tmpfiles lib/tmpfiles.d/rignolda.conf
644 rignoldad $packaging/rignoldad.8 share/man/man8/rignoldad.8
644 rignoldad $packaging/rignoldad.toml.5 share/man/man5/rignoldad.toml.5
644 rignoldactl $packaging/rignoldactl.1 share/man/man1/rignoldactl.1
644 rignoldactl $packaging/rignoldactl.bash share/bash-completion/completions/rignoldactl
644 rignoldactl $packaging/_rignoldactl share/zsh/site-functions/_rignoldactl
644 rignoldactl $packaging/rignoldactl.fish share/fish/vendor_completions.d/rignoldactl.fish
644 rignoldad $packaging/agent.toml share/doc/rignoldad/examples/agent.toml
644 rignoldad $packaging/alarms.yml share/doc/rignoldad/examples/alarms.yml
644 rignoldad $packaging/dashboard.json share/doc/rignoldad/examples/dashboard.json
END
    for program in stab rignolda; do
        cat <<END
644 $program $top/man/$program.1 share/man/man1/$program.1
644 $program $top/completions/$program.bash share/bash-completion/completions/$program
644 $program $top/completions/_$program share/zsh/site-functions/_$program
644 $program $top/completions/$program.fish share/fish/vendor_completions.d/$program.fish
END
    done
}

put_files() {
    files | while read -r mode program from name; do
        [ -x "$bin/$program" ] || continue
        mkdir -p "$(dirname "$to/$name")"
        # (a program that runs stays as it is until it ends)
        case $name in
            *.service) sed "s|/usr/bin/|$prefix/bin/|" "$from" ;;
            *) cat "$from" ;;
        esac >"$to/$name.new"
        chmod "$mode" "$to/$name.new"
        mv "$to/$name.new" "$to/$name"
    done
}

case ${1-} in
    files) put_files ;;
    uninstall)
        files | while read -r _ _ _ name; do rm -f "$to/$name"; done
        ;;
    '')
        put_files
        if [ -x "$bin/rignoldad" ]; then
            # shellcheck source=rust/rignoldad/packaging/accounts
            . "$packaging/accounts"
            make_accounts
        fi
        ;;
    *)
        echo 'install.sh: it takes files, uninstall, or no words' >&2
        exit 2
        ;;
esac
