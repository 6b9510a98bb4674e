"""The pages of the repository: README.md, CONTRIBUTING.md, and those of docs/."""
import pathlib

TOP = pathlib.Path(__file__).resolve().parent.parent
PAGES = [TOP / "README.md", TOP / "CONTRIBUTING.md", *sorted((TOP / "docs").glob("*.md"))]


def name_of(page):
    """Its name from the top of the repository."""
    return str(page.relative_to(TOP))
