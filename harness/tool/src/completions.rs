//! Completions for bash, made from the same table as the help texts.

use crate::commands::COMMANDS;
use crate::syntax::{Argument, Command, Opt, Takes};

/// What a right can be: as the words on a command line have it.
const RIGHTS: &str = "right";

/// What a version can be besides a number.
const VERSIONS: &str = "newest";

pub fn for_bash() -> String {
    let names = COMMANDS.map(|command| command.name).join(" ");
    let cases: String = COMMANDS.iter().map(|command| case(command)).collect();
    format!(
        "# Completions for bash: source <(lurdempos --completions)\n\
         _lurdempos() {{\n    \
             local word=${{COMP_WORDS[COMP_CWORD]}} before=${{COMP_WORDS[COMP_CWORD-1]}} place=0 n\n    \
             local options='' values='' files='' folders='' kinds=()\n    \
             if ((COMP_CWORD == 1)); then\n        \
                 COMPREPLY=($(compgen -W '{names} help --help --version --manual --completions' -- \"$word\"))\n        \
                 return\n    \
             fi\n    \
             case ${{COMP_WORDS[1]}} in\n{cases}    \
             help) COMPREPLY=($(compgen -W '{names}' -- \"$word\")); return ;;\n    \
             *) return ;;\n    \
             esac\n{TAIL}"
    )
}

/// The options of a command, those that need a value, and what each argument is.
fn case(command: &Command) -> String {
    let all: Vec<&str> = command.all_options().map(|option| option.name).collect();
    let valued = |takes: Option<Takes>| {
        let wanted = |option: &&'static Opt| option.has_value() && takes.is_none_or(|takes| option.takes == takes);
        command.all_options().filter(wanted).map(|option| option.name).collect::<Vec<&str>>()
    };
    let kinds: Vec<&str> = command.arguments.iter().map(kind).collect();
    format!(
        "    {}) options='{}' values=' {} ' files=' {} ' folders=' {} ' kinds=({}) ;;\n",
        command.name,
        all.join(" "),
        valued(None).join(" "),
        valued(Some(Takes::File)).join(" "),
        valued(Some(Takes::Folder)).join(" "),
        kinds.join(" ")
    )
}

fn kind(argument: &Argument) -> &'static str {
    match argument.takes {
        Takes::File if argument.repeated => "files",
        Takes::File => "file",
        Takes::Folder => "folder",
        Takes::Version => VERSIONS,
        Takes::TillAndFile => "pair",
        Takes::Right => RIGHTS,
        Takes::Anything => "any",
    }
}

/// Which word it is, and what can stand there.
const TAIL: &str = r#"    if [[ $files == *" $before "* ]]; then
        compopt -o filenames 2> /dev/null
        mapfile -t COMPREPLY < <(compgen -f -- "$word")
        return
    fi
    if [[ $folders == *" $before "* ]]; then
        compopt -o filenames 2> /dev/null
        mapfile -t COMPREPLY < <(compgen -d -- "$word")
        return
    fi
    [[ $values == *" $before "* ]] && return
    if [[ $word == -* ]]; then
        COMPREPLY=($(compgen -W "$options" -- "$word"))
        return
    fi
    for ((n = 2; n < COMP_CWORD; n++)); do
        [[ ${COMP_WORDS[n]} == -?* || $values == *" ${COMP_WORDS[n-1]} "* ]] || ((place++))
    done
    # A day stands in a version's place.
    [[ " ${COMP_WORDS[*]} " == *' --day '* ]] && kinds=(${kinds[@]/newest/})
    # Pairs, rights and some files can come again. An equals sign is a word of its own to bash; what follows it is the file.
    if [[ ${#kinds[@]} != 0 && ${kinds[-1]} == @(pair|right|files) ]] && ((place >= ${#kinds[@]})); then place=$((${#kinds[@]} - 1)); fi
    case ${kinds[place]} in
    pair)
        if [[ $word == = ]]; then word=''; elif [[ $before != = ]]; then return; fi
        compopt -o filenames 2> /dev/null
        mapfile -t COMPREPLY < <(compgen -f -- "$word")
        ;;
    file|files) compopt -o filenames 2> /dev/null; mapfile -t COMPREPLY < <(compgen -f -- "$word") ;;
    folder) compopt -o filenames 2> /dev/null; mapfile -t COMPREPLY < <(compgen -d -- "$word") ;;
    right) COMPREPLY=($(compgen -W 'list backup restore retire all' -- "$word")) ;;
    newest) COMPREPLY=($(compgen -W newest -- "$word")) ;;
    esac
}
complete -F _lurdempos lurdempos
"#;
