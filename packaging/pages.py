"""Man pages, of the words that the programs tell, and of README.md's table of statuses."""
import re

SEE_ALSO = {"isp": "ispx", "ispx": "isp"}
EXAMPLE = {
    "isp": "isp run --gang 16 brighten.ispc brighten brighten.json",
    "ispx": "ispx run brighten.ispc brighten 'pixels=[0,100,250]' count=3 level=50",
}
# how editors are set up that `ispx lsp` serves
EDITORS = {
    "Neovim": "cp -r /usr/share/doc/isp/editors/vim/. ~/.config/nvim/: a file NAME.ispc has its colours then, and `ispx lsp` is started for it.",
    "Vim": "cp -r /usr/share/doc/isp/editors/vim/. ~/.vim/ for the colours. A plugin that speaks the language server protocol wants the command `ispx lsp`.",
    "VS Code": "cp -r /usr/share/doc/isp/editors/vscode ~/.vscode/extensions/isp-ispc, and npm install in that folder.",
}


def quoted(text):
    """Returns a text as roff takes it: no letter of it is a command, and hyphens can be searched for."""
    text = text.replace("\\", "\\e").replace("-", "\\-").replace("`", "")
    return re.sub(r"(?m)^([.'])", r"\\&\1", text)


def heading(name):
    return [f".SH {name}"]


def item(head, *paragraphs):
    return [".TP", head, *map(quoted, paragraphs)]


def spelt(option):
    """Returns an option with its value, in the fonts of a man page."""
    names = ", ".join(f"\\fB{quoted(it)}\\fR" for it in (option.short, option.long) if it)
    return f"{names} \\fI{option.value}\\fR" if option.value else names


def of_option(option):
    text = option.help + "."
    if option.values:
        text += f" One of {', '.join(option.values)}."
    if option.default:
        text += f" {option.default} where it is left out."
    return item(spelt(option), text)


def usage(program, command):
    options = [f"[\\fB{quoted(it.long)}\\fR" + (f" \\fI{it.value}\\fR]" if it.value else "]") for it in command.options if it.long != "--help"]
    arguments = [(f"\\fI{it.name}\\fR" if it.is_required else f"[\\fI{it.name}\\fR]") + (" .." if it.is_repeated else "") for it in command.arguments]
    return " ".join([f"\\fB{program.name} {command.name}\\fR", *options, *arguments])


def of_command(program, command):
    lines = [f".SS {program.name} {command.name}", quoted(command.about + "."), ".PP", usage(program, command)]
    for it in command.arguments:
        lines += item(f"\\fI{it.name}\\fR", it.help + ".")
    for it in command.options:
        lines += of_option(it)
    return lines


def statuses(readme):
    """Returns the rows of README.md's table of statuses: the status and when it comes."""
    table = readme.split("| Status | When |")[1].split("\n\n")[0]
    return [(it[0], it[1]) for it in re.findall(r"^\| (\d+) \| (.*?) \|", table, re.M) if it[0] != "125"]


def man_page(program, readme, date):
    """Returns the page of section 1 for a program."""
    lines = [f'.TH {program.name.upper()} 1 "{date}" "isp {program.version.split()[0]}" "User Commands"', *heading("NAME")]
    lines += [f"{program.name} \\- {quoted(program.about[0].lower() + program.about[1:])}", *heading("SYNOPSIS")]
    for it in program.commands:
        lines += [usage(program, it), ".br"]
    lines += [*heading("DESCRIPTION"), quoted(program.about + "."), ".PP", f"Version {quoted(program.version)}."]
    lines += [*heading("COMMANDS")]
    for it in program.commands:
        lines += of_command(program, it)
    lines += [*heading("OPTIONS")]
    for it in program.options:
        lines += of_option(it)
    lines += [*heading("EXIT STATUS")]
    for status, when in statuses(readme):
        lines += item(f"\\fB{status}\\fR", when + ".")
    lines += [*heading("EXAMPLES"), ".nf", quoted(EXAMPLE[program.name]), ".fi"]
    if program.command("lsp"):
        lines += heading("EDITORS")
        for name, how in EDITORS.items():
            lines += item(name, how)
    lines += [*heading("SEE ALSO"), f".BR {SEE_ALSO[program.name]} (1),", "the pages and kernels in /usr/share/doc/isp"]
    return "\n".join(lines) + "\n"
