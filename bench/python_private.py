"""Private names as Python's compiler writes them out (Python reference 6.2.1), over the trees of `ast`."""
import ast


def written_out(name, around):
    """A name within a class, of whose name `around` is left without leading underscores."""
    return f"_{around}{name}" if around and name.startswith("__") and not name.endswith("__") else name


class PrivateNames(ast.NodeTransformer):
    """Writes out the private names of a program; the keyword of an argument is none."""

    def __init__(self):
        self.around = ""

    def here(self, name):
        return written_out(name, self.around)

    def visit_Name(self, node):
        node.id = self.here(node.id)
        return node

    def visit_Attribute(self, node):
        node.attr = self.here(node.attr)
        return self.generic_visit(node)

    def visit_arg(self, node):
        node.arg = self.here(node.arg)
        return self.generic_visit(node)

    def visit_alias(self, node):
        node.name = self.here(node.name)
        node.asname = node.asname and self.here(node.asname)
        return node

    def visit_FunctionDef(self, node):
        node.name = self.here(node.name)
        return self.generic_visit(node)

    visit_AsyncFunctionDef = visit_FunctionDef

    def visit_ClassDef(self, node):
        own, outer = node.name.lstrip("_"), self.around
        node.name = self.here(node.name)
        node.bases = [self.visit(base) for base in node.bases]
        node.keywords = [self.visit(keyword) for keyword in node.keywords]
        self.around = own
        node.body = [self.visit(line) for line in node.body]
        self.around = outer
        return node


def tree_of(text):
    """The tree of a program with its private names written out."""
    return PrivateNames().visit(ast.parse(text))
