"""The kit's command rt as a Python module, for the tools beside this file: `gate` is rt itself, `rtlib` the library that it stands on."""
import importlib.machinery, importlib.util, os, shutil, sys

_rt = os.path.realpath(shutil.which("rt") or sys.exit(f"{os.path.basename(sys.argv[0])}: there is no rt on PATH"))
_loader = importlib.machinery.SourceFileLoader("rtgate", _rt)
gate = importlib.util.module_from_spec(importlib.util.spec_from_loader("rtgate", _loader))
sys.modules["rtgate"] = gate
_loader.exec_module(gate)
rtlib = gate.rtlib
if not hasattr(gate, "Kept"):
    # (rattle-kit-13b's rt keeps nothing between two runs)
    import store

    gate.own_sum, gate.copy_crates, gate.Kept = store.of_kit(gate)
