"""Holds the sources of the blocks in station.grc to the files beside it; with --write puts those files into it, and saves it as
gnuradio-companion would."""

import sys
from pathlib import Path

import warintaya_coder
import yaml
from check_common import fail
from gnuradio import gr

HERE = Path(warintaya_coder.__file__).parent
FLOW_GRAPH = HERE / "station.grc"
SOURCES = {name: (HERE / f"warintaya_{name}.py").read_text() for name in ("coder", "receiver")}


def check():
    """Whether they are the same."""
    found = {block["name"]: block["parameters"] for block in yaml.safe_load(FLOW_GRAPH.read_text())["blocks"]}
    for name, source in SOURCES.items():
        if found[name]["_source_code"] != source:
            fail(f"station.grc has another warintaya_{name}.py than its folder: check --embed puts that one into it")
    print("gnuradio: station.grc has the blocks of its folder")


def write():
    """Puts the files into the flow graph."""
    from gnuradio.grc.core.platform import Platform

    version = gr.major_version(), gr.api_version(), gr.minor_version()
    platform = Platform(name="warintaya", prefs=gr.prefs(), version=gr.version(), version_parts=version)
    platform.build_library()
    parsed = platform.parse_flow_graph(str(FLOW_GRAPH))
    for block in parsed["blocks"]:
        if block["name"] in SOURCES:
            block["parameters"]["_source_code"] = SOURCES[block["name"]]
    flow = platform.make_flow_graph()
    flow.import_data(parsed)
    flow.rewrite()
    platform.save_flow_graph(str(FLOW_GRAPH), flow)


if sys.argv[1:] == ["--write"]:
    write()
else:
    check()
