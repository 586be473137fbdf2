"""The names of a program's module and their values, as CPython has them, in the words of the table of bench/programs."""
import contextlib
import io
import types

from python_values import DEEPEST, in_quotes

HIDDEN = ("__module__", "__qualname__", "__dict__", "__weakref__", "__doc__", "__annotations__", "__builtins__", "__name__")


def shown(value, depth=DEEPEST):
    if depth == 0:
        return ".."
    depth -= 1
    if isinstance(value, list):
        return "[" + ", ".join(shown(v, depth) for v in value) + "]"
    if isinstance(value, tuple):
        return "(" + ", ".join(shown(v, depth) for v in value) + (",)" if len(value) == 1 else ")")
    if isinstance(value, dict):
        return "{" + ", ".join(f"{shown(k, depth)}: {shown(v, depth)}" for k, v in value.items()) + "}"
    if isinstance(value, type) and value.__module__ == "__main__":
        base = "" if value.__base__ is object else shown(value.__base__, depth) + "; "
        return f"class({base}{named(vars(value), depth)})"
    if type(value).__module__ == "__main__":
        return f"object({named(vars(value), depth)})"
    return leaf(value)


def leaf(value):
    functions = (
        types.FunctionType, types.BuiltinFunctionType, types.MethodType, types.WrapperDescriptorType, types.MethodWrapperType,
        type,
    )
    if isinstance(value, functions):
        return "function"
    return in_quotes(value) if isinstance(value, str) else repr(value)


def named(names, depth=DEEPEST):
    return ", ".join(f"{n}={shown(v, depth)}" for n, v in names.items() if n not in HIDDEN)


def ends(text):
    """What a program leaves behind: its names, or the line at which it raises."""
    names = {"__name__": "__main__"}
    with contextlib.redirect_stdout(io.StringIO()):
        try:
            exec(compile(text, "program", "exec"), names)
        except Exception as error:
            trace, line = error.__traceback__, 0
            while trace:
                line = trace.tb_lineno if trace.tb_frame.f_code.co_filename == "program" else line
                trace = trace.tb_next
            return "raised", line
    return "names", named(names)
