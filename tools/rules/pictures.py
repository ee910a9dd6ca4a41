"""The pictures of README.md and docs/ARCHITECTURE.md show what the pages and the sources say."""
import importlib.util
import pathlib

TOP = pathlib.Path(__file__).resolve().parent.parent.parent


def pictures():
    """The files of docs/pictures are what docs/pictures/draw.py draws of the pages and the sources today."""
    place = importlib.util.spec_from_file_location("draw", TOP / "docs" / "pictures" / "draw.py")
    draw = importlib.util.module_from_spec(place)
    place.loader.exec_module(draw)
    return draw.differences()
