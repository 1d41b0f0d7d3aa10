#compdef kmod depmod modprobe modinfo
# Completion of kmod, depmod, modprobe and modinfo for zsh.

# The value of one of the given options on the line, in REPLY.
_kmod_value() {
    local option at
    REPLY=
    for option in "$@"; do
        at=${words[(i)$option]}
        (( at < $#words )) && REPLY=${words[at + 1]}
    done
}

_kmod_versions() {
    local -a versions
    _kmod_value -b -d --basedir --dirname
    versions=(${REPLY%/}/lib/modules/*(N/:t))
    compadd -a versions
}

_kmod_names() {
    local -a names
    local root
    _kmod_value -b -d --basedir --dirname
    root=${REPLY%/}
    _kmod_value -S -k --set-version
    names=(${(f)"$(sed -e 's/:.*//' -e 's|.*/||' -e 's/\.ko$//' -e 's/-/_/g' -- $root/lib/modules/$REPLY/modules.dep 2>/dev/null)"})
    compadd -a names
}

_kmod_depmod() {
    _arguments -s \
        '(-a --all)'{-a,--all}'[index all modules, as always]' \
        '(-b --basedir)'{-b,--basedir}'[root of the modules]:root:_files -/' \
        '(-C --config)'{-C,--config}'[configuration]:path:_files' \
        '(-E --symvers -F --filesyms)'{-E,--symvers}'[exports of the kernel]:Module.symvers:_files' \
        '(-e --errsyms)'{-e,--errsyms}'[warn about missing symbols]' \
        '--extra[write the built-in aliases and the device nodes too]' \
        '(-E --symvers -F --filesyms)'{-F,--filesyms}'[exports of the kernel]:System.map:_files' \
        '(-n --dry-run)'{-n,--dry-run}'[print the text files]' \
        '(-o --outdir)'{-o,--outdir}'[root of the files that are written]:root:_files -/' \
        '1:version:_kmod_versions'
}

_kmod_modprobe() {
    _arguments -s \
        '(-S --set-version)'{-S,--set-version}'[version of the kernel]:version:_kmod_versions' \
        '(-n --dry-run)'{-n,--dry-run}'[print the plan]' \
        '(-D --show-depends)'{-D,--show-depends}'[print the plan as if no module were loaded]' \
        '(-R --resolve-alias)'{-R,--resolve-alias}'[print what names resolve to]' \
        '(-r --remove)'{-r,--remove}'[take modules out of the model]' \
        '(-a --all)'{-a,--all}'[every word is a name]' \
        '(-b --use-blacklist)'{-b,--use-blacklist}'[apply the blacklist to names too]' \
        '(-C --config)'{-C,--config}'[configuration]:path:_files' \
        '(-d --dirname)'{-d,--dirname}'[root of the modules]:root:_files -/' \
        '(-i --ignore-install)'{-i,--ignore-install}'[ignore install commands of the names]' \
        '--image[folder for images]:folder:_files -/' \
        '--loaded[modules that are loaded]:file:_files' \
        '--params[write options into copies of images]' \
        '--region[where modules are placed]:base\:size:(0xffffffffc0000000\:0x3f000000)' \
        '--symvers[exports of the kernel]:Module.symvers:_files' \
        '--system-map[addresses of the kernel]:System.map:_files' \
        '*:module:_kmod_names'
}

_kmod_modinfo() {
    _arguments -s \
        '(-F --field)'{-F,--field}'[only the values of a key]:key:(alias author depends description filename firmware intree license name parm softdep srcversion vermagic version)' \
        '(-a --author)'{-a,--author}'[only the authors]' \
        '(-d --description)'{-d,--description}'[only the description]' \
        '(-l --license)'{-l,--license}'[only the license]' \
        '(-p --parameters)'{-p,--parameters}'[only the parameters]' \
        '(-n --filename)'{-n,--filename}'[only the path]' \
        '(-0 --null)'{-0,--null}'[end lines with NUL]' \
        '(-k --set-version)'{-k,--set-version}'[names of modules of this kernel]:version:_kmod_versions' \
        '(-b --basedir)'{-b,--basedir}'[root of the modules, with -k]:root:_files -/' \
        '*:module:_kmod_modules'
}

_kmod_static_nodes() {
    _arguments -s \
        '-d[root of the modules]:root:_files -/' \
        '-S[version of the kernel]:version:_kmod_versions' \
        '(-f --format)'{-f,--format}'[format of the nodes]:format:(devname)'
}

_kmod_builtin_alias() {
    _arguments -s \
        '-d[root of the modules]:root:_files -/' \
        '-S[version of the kernel]:version:_kmod_versions' \
        '1:name:'
}

_kmod_modules() {
    if (( ${words[(I)(-k|--set-version)]} )); then
        _kmod_names
    else
        _files
    fi
}

_kmod() {
    local command=${service:t}
    if [[ $command == kmod ]]; then
        if (( CURRENT == 2 )); then
            compadd depmod modprobe modinfo trial static-nodes builtin-alias
            return
        fi
        command=${words[2]}
        shift words
        (( CURRENT-- ))
    fi
    case $command in
    depmod | modprobe | modinfo) _kmod_$command ;;
    static-nodes | builtin-alias) _kmod_${command//-/_} ;;
    esac
}

_kmod "$@"
