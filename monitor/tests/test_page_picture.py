"""README's picture shows the page as it is."""
import pathlib

from .page_pictures import checksum, checksum_in, readme_page, with_checksum
from .simulated import SiteTest

PICTURE = pathlib.Path(__file__).resolve().parent.parent.parent / "docs/page.png"


class PagePictureTest(SiteTest):
    """The page at the moment of the picture, and the checksum in the picture."""

    def test_the_picture_is_of_this_page(self) -> None:
        again = "the page has changed: cd monitor; python3 -m tests.page_pictures FOLDER; cp FOLDER/page.png ../docs/page.png"
        self.assertEqual(checksum(readme_page(self.folder)), checksum_in(PICTURE.read_bytes()), again)

    def test_a_picture_of_another_page_is_told_apart(self) -> None:
        picture = with_checksum(bytes(12), checksum("another page"))
        self.assertEqual(checksum_in(picture), checksum("another page"))
        self.assertIsNone(checksum_in(bytes(12)))
