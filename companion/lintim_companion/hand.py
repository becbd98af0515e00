"""What people write of a dataset: the files of `formats` that no stage makes, and the settings."""

import shutil
from pathlib import Path

from . import formats, settings


def copy_hand_files(source: Path, folder: Path) -> None:
    """Copies what people write of a dataset into a folder, which is made where it is not there:
    the settings with what they include, and no other file beside them."""
    names = [file.name for file in formats.FILES if not file.stage]
    for name in [*names, formats.CONFIG, *settings.included(source)]:
        if (source / name).is_file():
            (folder / name).parent.mkdir(parents=True, exist_ok=True)
            shutil.copy(source / name, folder / name)
