"""Files that are replaced as a whole, so that nobody reads half of one."""
import os
import tempfile

MODE = 0o644


def write_whole(name, text):
    """Replaces a file, or leaves it as it is."""
    with tempfile.NamedTemporaryFile('w', encoding='utf-8', dir=os.path.dirname(name) or '.', prefix='.new-',
                                     delete=False) as file:
        try:
            file.write(text)
            file.flush()
            os.fsync(file.fileno())
            os.fchmod(file.fileno(), MODE)
            os.replace(file.name, name)
        except BaseException:
            os.unlink(file.name)
            raise
