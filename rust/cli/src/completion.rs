//! `json-patch completion`: completions for a shell, made of the table of
//! commands.

use crate::arguments::{wrong, Arguments};
use crate::command::{Command, Opt, Status, Takes};
use crate::files::{self, Name};
use crate::trouble::Trouble;
use crate::COMMANDS;
use std::fmt::Write;

/// The command.
pub const COMMAND: Command = Command {
    name: "completion",
    operands: "SHELL",
    summary: "print completions for bash, zsh or fish",
    details: "\
Prints what the shell reads to complete commands, options and file names.
'make install' puts them where the shells look for them.",
    options: &[],
    example: "$ . <(json-patch completion bash)",
    takes: Takes::Words(&["bash", "zsh", "fish"]),
    run,
};

fn run(arguments: &Arguments) -> Result<Status, Trouble> {
    let [shell] = &arguments.operands[..] else {
        return Err(wrong(&COMMAND, "completion takes one shell: bash, zsh or fish"));
    };
    let text = match shell.to_str() {
        Some("bash") => bash(),
        Some("zsh") => zsh(),
        Some("fish") => fish(),
        _ => return Err(wrong(&COMMAND, format!("unknown shell: {}", Name(shell)))),
    };
    files::print(text.as_bytes()).map(|()| Status::Done)
}

/// The names of all commands, with blanks between them.
fn commands() -> String {
    let names: Vec<&str> = COMMANDS.iter().map(|command| command.name).chain(["help"]).collect();
    names.join(" ")
}

/// The words that an option can be given by.
fn forms(option: &Opt) -> impl Iterator<Item = String> + '_ {
    let short = option.short.map(|short| format!("-{short}"));
    short.into_iter().chain([format!("--{}", option.long)])
}

fn bash() -> String {
    let (mut cases, mut values) = (String::new(), Vec::new());
    for command in COMMANDS {
        let mut words: Vec<String> = command.options.iter().flat_map(forms).collect();
        words.extend(["-h".to_string(), "--help".to_string()]);
        let taken = command.options.iter().filter(|option| option.value.is_some());
        values.extend(taken.flat_map(forms));
        let operands = match command.takes {
            Takes::Files => "files=yes".to_string(),
            Takes::Words(words) => format!("words='{}'", words.join(" ")),
            Takes::Text => String::new(),
        };
        let line = format!("{}) options='{}' {operands}", command.name, words.join(" "));
        let _ = writeln!(cases, "        {} ;;", line.trim_end());
    }
    values.sort();
    values.dedup();
    let values = values.join(" | ");
    let all = commands();
    format!(
        r#"# Completions of json-patch for bash.
_json_patch() {{
    local word=${{COMP_WORDS[COMP_CWORD]}} before=${{COMP_WORDS[COMP_CWORD - 1]}}
    local options='' words='' files=''
    COMPREPLY=()
    if ((COMP_CWORD == 1)); then
        mapfile -t COMPREPLY < <(compgen -W '{all} -h --help -V --version' -- "$word")
        return
    fi
    case ${{COMP_WORDS[1]}} in
        help) words='{all}' ;;
{cases}    esac
    case $before in
        {values}) options='' words='' files=yes ;;
        *) if [[ $word == -?* ]]; then
            mapfile -t COMPREPLY < <(compgen -W "$options" -- "$word")
            return
        fi ;;
    esac
    if [[ $words ]]; then
        mapfile -t COMPREPLY < <(compgen -W "$words" -- "$word")
    elif [[ $files ]]; then
        compopt -o filenames 2>/dev/null
        mapfile -t COMPREPLY < <(compgen -f -- "$word")
    fi
}}
complete -F _json_patch json-patch
"#
    )
}

fn zsh() -> String {
    let (mut list, mut cases) = (String::new(), String::new());
    for command in COMMANDS {
        let _ = writeln!(list, "        '{}:{}'", command.name, command.summary);
        let _ = writeln!(
            cases,
            "                {})\n                    _arguments -s \\",
            command.name
        );
        for option in command.options {
            let takes = option.value.map_or(String::new(), |value| format!(":{value}:_files"));
            for form in forms(option) {
                let long = option.value.is_some() && form.starts_with("--");
                let equals = if long { "=" } else { "" };
                let about = option.summary;
                let _ =
                    writeln!(cases, "                        '{form}{equals}[{about}]{takes}' \\");
            }
        }
        let operand = match command.takes {
            Takes::Files => "'*:file:_files'".to_string(),
            Takes::Words(words) => format!("'1:word:({})'", words.join(" ")),
            Takes::Text => format!("'1:{}: '", command.operands),
        };
        let help = "'(- *)'{-h,--help}'[show this help]'";
        let _ = writeln!(
            cases,
            "                        {help} \\\n                        {operand}\n                    ;;"
        );
    }
    let names = commands();
    format!(
        r#"#compdef json-patch
# Completions of json-patch for zsh.
_json_patch() {{
    local context state state_descr line
    typeset -A opt_args
    local -a commands=(
{list}        'help:show the help of a command'
    )
    _arguments -C \
        '(- *)'{{-h,--help}}'[show this help]' \
        '(- *)'{{-V,--version}}'[show the version]' \
        '1:command:->command' \
        '*::argument:->argument'
    case $state in
        command)
            _describe command commands
            ;;
        argument)
            case $words[1] in
{cases}                help)
                    _arguments '1:command:({names})'
                    ;;
            esac
            ;;
    esac
}}
if [[ $funcstack[1] == _json-patch ]]; then _json_patch "$@"; else compdef _json_patch json-patch; fi
"#
    )
}

fn fish() -> String {
    let line = "complete -c json-patch";
    let first = format!("{line} -n __fish_use_subcommand");
    let mut text = format!(
        "# Completions of json-patch for fish.\n\
         {first} -f -s h -l help -d 'show this help'\n\
         {first} -f -s V -l version -d 'show the version'\n\
         {first} -f -a help -d 'show the help of a command'\n\
         {line} -n '__fish_seen_subcommand_from help' -f -a '{}'\n",
        commands()
    );
    for command in COMMANDS {
        let name = command.name;
        let _ = writeln!(text, "{first} -f -a {name} -d '{}'", command.summary);
        let line = format!("{line} -n '__fish_seen_subcommand_from {name}'");
        for option in command.options {
            let short = option.short.map_or(String::new(), |short| format!(" -s {short}"));
            let takes = if option.value.is_some() { " -r" } else { "" };
            let (long, about) = (option.long, option.summary);
            let _ = writeln!(text, "{line}{short} -l {long}{takes} -d '{about}'");
        }
        let _ = writeln!(text, "{line} -s h -l help -d 'show this help'");
        let _ = match command.takes {
            Takes::Files => Ok(()),
            Takes::Words(words) => writeln!(text, "{line} -f -a '{}'", words.join(" ")),
            Takes::Text => writeln!(text, "{line} -f"),
        };
    }
    text
}

#[cfg(test)]
mod tests {
    use super::*;

    /// What a shell would take for more than text must not stand in a summary.
    #[test]
    fn summaries_need_no_quoting() {
        for command in COMMANDS {
            let options = command.options.iter().map(|option| option.summary);
            for summary in options.chain([command.summary]) {
                assert!(!summary.contains(['\'', '[', ']', ':', '\\', '\n']), "{summary}");
            }
        }
    }
}
