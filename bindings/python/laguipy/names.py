"""Names of a model's variables and commands. They stand beside the folder, in a file of text: model.names beside
model.fold.

  # Names for model.fold, in the order of the model.
  model sha256 3f5c...        the folder that they belong to; may be left out
  variable a
  variable d
  command scan
  command -                   a command without a name
"""
import hashlib
import os

from .errors import InputError, counted
from .files import save, why
from .text import NAME, RESERVED

MOST_BYTES = 65_536  # of a file of names


class Names:
    """Names of the variables, and of the commands, of which some have none."""

    def __init__(self, variables, commands):
        self.variables = variables
        self.commands = commands

    def command(self, c):
        """Command c, for a reader."""
        name = self.commands[c] if c < len(self.commands) else None
        return f"command {c} ({name})" if name else f"command {c}"

    def state(self, values):
        """A state, for a reader."""
        return ", ".join(f"{name} = {value}" for name, value in zip(self.variables, values))


def plain_names(model):
    """v0, v1 and so on."""
    return Names([f"v{i}" for i in range(len(model.variables))], [None] * len(model.commands))


def checked(variables, model, what):
    """These names of the variables, if they can name them all."""
    for name in variables:
        if not NAME.match(name) or name in RESERVED:
            raise InputError(f"{what}: {name!r} cannot name a variable")
    if len(set(variables)) < len(variables) or len(variables) != len(model.variables):
        raise InputError(f"{what} wants {counted(len(model.variables), 'name')} that differ, with commas between")
    return variables


def names_for(model, names=None):
    """Names for a model: those given, as Names or as a list of the variables' names; else v0, v1 and so on."""
    if names is None:
        return plain_names(model)
    if isinstance(names, Names):
        return names
    return Names(checked(list(names), model, "--names"), [None] * len(model.commands))


# ---- the file


def names_path(fold):
    """Where the names of a model folder stand."""
    base, extension = os.path.splitext(os.fspath(fold))
    return (base if extension == ".fold" else os.fspath(fold)) + ".names"


def names_text(names, data):
    """The file of names for the model folder `data`."""
    lines = ["# Names for the model folder beside this file, in the order of the model."]
    lines.append(f"model sha256 {hashlib.sha256(data).hexdigest()}")
    lines += [f"variable {name}" for name in names.variables]
    lines += [f"command {name or '-'}" for name in names.commands]
    return "\n".join(lines) + "\n"


def save_model(out, written, source):
    """A model's folder, and its names beside it; nothing stands beside a device or a pipe."""
    save(out, written.data, [source])
    if os.path.isfile(out):
        save(names_path(out), names_text(written.names, written.data).encode(), [source])


def parse_names(text, model, data):
    """The names in a file's text, for the model in the folder `data`."""
    found = {"variable": [], "command": []}
    for number, line in enumerate(text.split("\n"), 1):
        words = line.split("#", 1)[0].split()
        if not words:
            continue
        if words[0] == "model" and len(words) == 3 and words[1] == "sha256":
            if words[2] != hashlib.sha256(data).hexdigest():
                raise InputError("these names belong to another model folder", number)
        elif words[0] in found and len(words) == 2:
            add_name(found[words[0]], words, number)
        else:
            raise InputError("a line is 'variable NAME', 'command NAME' or 'model sha256 ...'", number)
    for kind, there in (("variable", len(model.variables)), ("command", len(model.commands))):
        if len(found[kind]) != there and (kind == "variable" or found[kind]):
            raise InputError(f"{counted(len(found[kind]), kind)} named, and the model has {there}")
    return Names(found["variable"], found["command"] or [None] * len(model.commands))


def add_name(names, words, number):
    kind, name = words
    if kind == "command" and name == "-":
        names.append(None)
        return
    if not NAME.match(name) or name in RESERVED:
        raise InputError(f"{name!r} cannot be a name", number)
    if name in names:
        raise InputError(f"there is a {name!r} already", number)
    names.append(name)


def find_names(fold, model, data):
    """The names that stand beside a model folder, and what is wrong with them, if anything is; else plain ones."""
    path = names_path(fold)
    if os.path.exists(path) and not os.path.isfile(path):
        return plain_names(model), f"{path}: cannot be read: it is no file"
    try:
        with open(path, "rb") as file:
            text = file.read(MOST_BYTES + 1)
        if len(text) > MOST_BYTES:
            raise InputError(f"a file of names has at most {MOST_BYTES} bytes")
        return parse_names(text.decode("utf-8-sig"), model, data), None
    except FileNotFoundError:
        return plain_names(model), None
    except OSError as error:
        return plain_names(model), f"{path}: cannot be read: {why(error)}"
    except UnicodeDecodeError:
        return plain_names(model), f"{path}: this is not UTF-8 text"
    except InputError as error:
        return plain_names(model), error.at(path).message
