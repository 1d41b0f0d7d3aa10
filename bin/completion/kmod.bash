# Completion of kmod, depmod, modprobe and modinfo for bash. Read it with `.`, or let bash-completion find it.
# shellcheck shell=bash

# The versions below a root's lib/modules.
_kmod_versions() {
    (cd -- "${1%/}/lib/modules" 2>/dev/null && printf '%s\n' *)
}

# The names of the modules that depmod indexed below a root, for a version.
_kmod_names() {
    sed -e 's/:.*//' -e 's|.*/||' -e 's/\.ko$//' -e 's/-/_/g' -- "${1%/}/lib/modules/$2/modules.dep" 2>/dev/null
}

# Puts the given words that begin with what is being completed into COMPREPLY.
_kmod_offer() {
    mapfile -t COMPREPLY < <(compgen -W "$1" -- "$current")
}

_kmod_offer_files() {
    compopt -o filenames 2>/dev/null
    mapfile -t COMPREPLY < <(compgen "$1" -- "$current")
}

_kmod() {
    local current=${COMP_WORDS[COMP_CWORD]} previous=${COMP_WORDS[COMP_CWORD - 1]}
    local command=${COMP_WORDS[0]##*/} first=1 root='' version='' at
    COMPREPLY=()
    if [[ $command == kmod ]]; then
        if ((COMP_CWORD == 1)); then
            _kmod_offer "depmod modprobe modinfo trial static-nodes builtin-alias"
            return
        fi
        command=${COMP_WORDS[1]} first=2
    fi
    for ((at = first; at < COMP_CWORD; at++)); do
        case ${COMP_WORDS[at]} in
        -b | -d | --basedir | --dirname) [[ $command == modprobe && ${COMP_WORDS[at]} == -b ]] || root=${COMP_WORDS[at + 1]} ;;
        -S | -k | --set-version) version=${COMP_WORDS[at + 1]} ;;
        esac
    done
    case $command:$previous in
    modprobe:-b) ;;
    *:-b | *:-o | modprobe:-d | static-nodes:-d | builtin-alias:-d | *:--basedir | *:--dirname | *:--outdir | *:--image)
        _kmod_offer_files -d
        return
        ;;
    depmod:-E | depmod:-F | *:-C | *:--config | *:--filesyms | *:--loaded | *:--symvers | *:--system-map)
        _kmod_offer_files -f
        return
        ;;
    modprobe:-S | static-nodes:-S | builtin-alias:-S | modinfo:-k | *:--set-version)
        _kmod_offer "$(_kmod_versions "$root")"
        return
        ;;
    modinfo:-F | *:--field)
        _kmod_offer "alias author depends description filename firmware intree license name parm softdep srcversion vermagic version"
        return
        ;;
    static-nodes:-f | *:--format)
        _kmod_offer "devname"
        return
        ;;
    *:--region)
        _kmod_offer "0xffffffffc0000000:0x3f000000"
        return
        ;;
    esac
    case $command:$current in
    depmod:-*) _kmod_offer "-a --all -b --basedir -C --config -E --symvers -e --errsyms --extra -F --filesyms -n --dry-run -o --outdir" ;;
    modprobe:-*)
        _kmod_offer "-S --set-version -n --dry-run -D --show-depends -R --resolve-alias -r --remove -a --all
            -b --use-blacklist -C --config -d --dirname -i --ignore-install --image --loaded --params --region
            --symvers --system-map"
        ;;
    modinfo:-*)
        _kmod_offer "-F --field -a --author -d --description -l --license -p --parameters -n --filename -0 --null
            -k --set-version -b --basedir"
        ;;
    static-nodes:-*) _kmod_offer "-d -S -f --format" ;;
    builtin-alias:-*) _kmod_offer "-d -S" ;;
    depmod:*) _kmod_offer "$(_kmod_versions "$root")" ;;
    modprobe:*) _kmod_offer "$(_kmod_names "$root" "$version")" ;;
    modinfo:*)
        if [[ -n $version ]]; then
            _kmod_offer "$(_kmod_names "$root" "$version")"
        else
            _kmod_offer_files -f
        fi
        ;;
    esac
}

complete -F _kmod kmod depmod modprobe modinfo
