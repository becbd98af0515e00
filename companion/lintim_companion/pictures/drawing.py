"""matplotlib, imported with the settings of this package and with no others. All that is used of it
comes from here."""

from ..surroundings import own_settings

with own_settings():
    import matplotlib
    from matplotlib.backends.backend_agg import FigureCanvasAgg
    from matplotlib.backends.backend_svg import FigureCanvasSVG
    from matplotlib.figure import Figure
    from matplotlib.font_manager import findfont
    from matplotlib.ft2font import FT2Font

__all__ = ["FT2Font", "Figure", "FigureCanvasAgg", "FigureCanvasSVG", "findfont", "matplotlib"]
