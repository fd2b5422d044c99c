"""The tool module of lazic for BenchExec: how it is run on a task, and which verdict its line is.

Put this file where BenchExec finds tool modules (a folder `tools` on PYTHONPATH with an empty `__init__.py`, then `tools.lazic`), and the
folder of the repository on the path. `verdict` is BenchExec's word for a line and a status, and stands without BenchExec too.
"""
import pathlib
import re

try:
    from benchexec.tools.template import BaseTool2
except ImportError:

    class BaseTool2:
        """What is used of it where there is no BenchExec."""


# The error that each property forbids. lazic looks for all of them at once, so an error of another kind says nothing of a property.
FORBIDDEN = {
    "unreach-call": {"reach"},
    "no-overflow": {"overflow"},
    "no-error": {"reach", "overflow", "zero", "shift", "index", "missing"},
}


def verdict(line, status, property_name):
    """`true`, `false(PROPERTY)`, `unknown` or an error, as BenchExec writes them."""
    if status == 0 and line == "SAFE":
        return "true"
    if status == 1 and (found := re.fullmatch(r"UNSAFE (\w+) at \d+:\d+", line)):
        return f"false({property_name})" if found.group(1) in FORBIDDEN.get(property_name, ()) else "unknown"
    if status == 2 and line.startswith("UNKNOWN"):
        return "unknown"
    if status == 12 and line.startswith("LIMIT"):
        return "unknown"
    if status == 15:
        return "OUT OF MEMORY"
    return f"ERROR ({line or status})"


class Tool(BaseTool2):
    REQUIRED_PATHS = ["lazic", "crates"]

    def executable(self, tool_locator):
        return tool_locator.find_executable("lazic")

    def name(self):
        return "lazic"

    def project_url(self):
        return ""

    def cmdline(self, executable, options, task, rlimits):
        options = list(options)
        told = task.options if isinstance(task.options, dict) else {}
        if "data_model" in told and "--model" not in options:
            options += ["--model", told["data_model"].lower()]
        # lazic knows no properties: the name stands in the environment, where `determine_result` finds it again.
        name = pathlib.PurePath(task.property_file or "no-error").stem
        return ["env", f"PROPERTY={name}", executable, "verify", task.single_input_file, *options]

    def determine_result(self, run):
        if run.was_timeout:
            return "TIMEOUT"
        if run.exit_code.value is None:
            return f"ERROR (signal {run.exit_code.signal})"
        lines = [line.strip() for line in run.output if line.strip()]
        return verdict(lines[-1] if lines else "", run.exit_code.value, run.cmdline[1].partition("=")[2])
