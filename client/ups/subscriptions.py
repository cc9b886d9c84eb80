"""The commands of watchers that ask: subscribe, unsubscribe, suspend."""

from __future__ import annotations

import argparse

from ups.association import Association
from ups.attributes import attributes_of
from ups.datasets import made
from ups.operations import act
from ups.terms import FILTERED, GLOBAL, WATCH


def instance_of(asked: argparse.Namespace) -> str:
    return asked.step or (FILTERED if getattr(asked, "attributes", None) else GLOBAL)


def subscribe(association: Association, asked: argparse.Namespace) -> int:
    information = attributes_of(asked.attributes)
    information.ReceivingAE, information.DeletionLock = asked.receiver or asked.ae, "TRUE" if asked.lock else "FALSE"
    return act(association, WATCH, 3, instance_of(asked), information)


def unsubscribe(association: Association, asked: argparse.Namespace) -> int:
    return act(association, WATCH, 4, asked.step or GLOBAL, made({"ReceivingAE": asked.receiver or asked.ae}))


def suspend(association: Association, asked: argparse.Namespace) -> int:
    return act(association, WATCH, 5, GLOBAL, made({"ReceivingAE": asked.receiver or asked.ae}))
