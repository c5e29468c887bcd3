"""Tests for the plugin of pytest: plugin.sh says which of them fail."""

import threading

import pytest

first, second, third = threading.Lock(), threading.Lock(), threading.Lock()


def test_forward():
    with first, second:
        pass


def test_backward():
    with second, first:
        pass


def test_again():
    with second, first:
        pass


@pytest.mark.witness(off=True)
def test_off():
    with second, third:
        pass
    with third, second:
        pass


def test_after_off():
    with third, second:
        pass


def test_own_fault():
    assert not first.locked(), "its own"
    with first:
        assert second.locked(), "its own"


@pytest.fixture
def backward():
    yield
    with third, first:
        with second:
            pass
    with first, third:
        pass


def test_fixture(backward):
    pass
