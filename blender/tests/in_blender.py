"""Runs the tests of the add-on as it is packed. Run by tools/test_blender: blender -b -P THIS -- ADDON.zip [NAME..]"""

import pathlib
import sys
import unittest

import bpy

ADDON, *NAMES = sys.argv[sys.argv.index("--") + 1:]
HERE = pathlib.Path(__file__).resolve().parent


def install():
    if bpy.app.version < (4, 2, 0):
        bpy.ops.preferences.addon_install(filepath=ADDON)
        bpy.ops.preferences.addon_enable(module="quadq_remesh")
    else:
        bpy.ops.extensions.package_install_files(filepath=ADDON, repo="user_default")


if __name__ == "__main__":
    install()
    sys.path.insert(0, str(HERE))
    loader = unittest.TestLoader()
    tests = loader.loadTestsFromNames(NAMES) if NAMES else loader.discover(str(HERE))
    sys.exit(not unittest.TextTestRunner().run(tests).wasSuccessful())
