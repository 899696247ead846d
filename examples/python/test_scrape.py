"""Tests of scrape.py, at a host of their own: `pytest test_scrape.py`."""
import threading
from collections.abc import Iterator

import pytest

import host
import scrape
from ribbonscarp import Color, FieldNotFound, KeyRefused, Session, connect, listen


@pytest.fixture
def session() -> Iterator[Session]:
    with listen(any=True, wait=10) as listener:
        threading.Thread(target=host.serve, args=(listener,), daemon=True).start()
        with connect("127.0.0.1", listener.port, wait=10) as session:
            yield session


def test_sign_on(session: Session) -> None:
    assert session.wait_text("Sign On").field("Password").is_hidden
    scrape.sign_on(session, "QUSER", "SECRET")
    assert "F3=Exit" in session.screen


@pytest.mark.parametrize("item, price", [("4711", "12.50"), ("12", "7.80"), ("13", "none")])
def test_price(session: Session, item: str, price: str) -> None:
    scrape.sign_on(session, "QUSER", "SECRET")
    assert scrape.price(session, item) == price


def test_wrong_item(session: Session) -> None:
    scrape.sign_on(session, "QUSER", "SECRET")
    with pytest.raises(KeyRefused):  # a field for numbers
        session.fill("Item number", "ABC")
    with pytest.raises(FieldNotFound):
        session.fill("Colour", "RED")
    session.fill("Item number", "99")
    session.press("F5")
    screen = session.wait_text("No such item")
    assert screen.cell(24, 2).color is Color.RED
    assert screen.field("Item number").text == "99"
