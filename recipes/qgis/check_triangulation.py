"""A Processing script of QGIS: whether a triangulation is sound, and where it is not.

The log has what 'tinmove check' says. Where the triangulation is refused for its triangles, the faults
come as points, in a layer for each of both frames, with the numbers of the triangles and corners: by
tinplaces --faults. A tinplaces that has no --faults is said so, and the log has the first fault.

To use it: Processing toolbox, Scripts, Add Script to Toolbox. The programs tinmove and tinplaces must
be on the PATH, or in the folder that is named.
"""
import json
import os
import subprocess
import tempfile

from qgis.core import (
    QgsFeature,
    QgsField,
    QgsFields,
    QgsGeometry,
    QgsPointXY,
    QgsProcessing,
    QgsProcessingAlgorithm,
    QgsProcessingException,
    QgsProcessingOutputBoolean,
    QgsProcessingParameterCrs,
    QgsProcessingParameterFeatureSink,
    QgsProcessingParameterFile,
    QgsProcessingParameterString,
    QgsWkbTypes,
)
from qgis.PyQt.QtCore import QVariant

# Statuses of a triangulation that was read: sound, with faults listed, and refused.
READ = (0, 1, 3)


class CheckTriangulation(QgsProcessingAlgorithm):
    def createInstance(self):
        return CheckTriangulation()

    def name(self):
        return "tinmove_check_triangulation"

    def displayName(self):
        return "Check a triangulation (tinmove)"

    def group(self):
        return "Frames"

    def groupId(self):
        return "frames"

    def shortHelpString(self):
        return __doc__

    def initAlgorithm(self, config=None):
        add = self.addParameter
        add(QgsProcessingParameterFile("TIN", "Triangulation (tinshift)", extension="json"))
        add(QgsProcessingParameterCrs("SOURCE_CRS", "Source frame", defaultValue="EPSG:21781"))
        add(QgsProcessingParameterCrs("TARGET_CRS", "Target frame", defaultValue="EPSG:2056"))
        folder = "Folder of the programs, where they are not on the PATH"
        add(QgsProcessingParameterString("FOLDER", folder, "", optional=True))
        point = QgsProcessing.TypeVectorPoint
        add(QgsProcessingParameterFeatureSink("SOURCE_FAULTS", "Faults in the source frame", point))
        add(QgsProcessingParameterFeatureSink("TARGET_FAULTS", "Faults in the target frame", point))
        self.addOutput(QgsProcessingOutputBoolean("IS_SOUND", "Whether it is sound"))

    def call(self, program, words, feedback):
        """The status, the text and the remarks of a program; a user who cancels ends it."""
        feedback.pushCommandInfo(" ".join([program, *words]))
        with tempfile.TemporaryFile() as said, tempfile.TemporaryFile() as remarks:
            try:
                run = subprocess.Popen([program, *words], stdout=said, stderr=remarks, stdin=subprocess.DEVNULL)
            except OSError as error:
                raise QgsProcessingException(f"{program}: {error.strerror}") from error
            while run.poll() is None:
                if feedback.isCanceled():
                    run.kill()
                    run.wait()
                    raise QgsProcessingException("cancelled")
                try:
                    run.wait(0.1)
                except subprocess.TimeoutExpired:
                    pass
            said.seek(0)
            remarks.seek(0)
            return run.returncode, said.read().decode(), remarks.read().decode(errors="replace")

    def processAlgorithm(self, parameters, context, feedback):
        folder = self.parameterAsString(parameters, "FOLDER", context)
        program = lambda name: os.path.join(folder, name) if folder else name
        words = ["--tin", os.path.abspath(self.parameterAsFile(parameters, "TIN", context))]
        status, said, remarks = self.call(program("tinmove"), ["check", *words], feedback)
        for line in (said + remarks).splitlines():
            feedback.pushInfo(line)
        if status not in READ:
            raise QgsProcessingException((said + remarks).strip() or f"tinmove ended with status {status}")
        faults = self.faults(program("tinplaces"), words, feedback) if status == 3 else []
        fields = self.fields_of(faults)
        results = {"IS_SOUND": status == 0}
        for name, is_target in (("SOURCE_FAULTS", False), ("TARGET_FAULTS", True)):
            crs = self.parameterAsCrs(parameters, "TARGET_CRS" if is_target else "SOURCE_CRS", context)
            sink, results[name] = self.parameterAsSink(parameters, name, context, fields, QgsWkbTypes.Point, crs)
            for fault in faults:
                if (fault["properties"].get("frame") == "target") == is_target:
                    sink.addFeature(self.feature_of(fault, fields))
        if faults:
            feedback.pushWarning(f"{len(faults)} faults")
        return results

    def faults(self, program, words, feedback):
        status, said, remarks = self.call(program, [*words, "--faults"], feedback)
        try:
            found = json.loads(said)["features"]
        except (ValueError, KeyError, TypeError):
            found = None
        if status not in READ or found is None:
            feedback.pushWarning("no list of faults: " + " ".join((said + remarks).split("\n")[:1]))
            return []
        return found

    @staticmethod
    def fields_of(faults):
        """A field for each property: whole numbers as such, lists as JSON."""
        kinds = {}
        for it in faults:
            for name, value in it["properties"].items():
                kind = QVariant.LongLong if isinstance(value, int) and not isinstance(value, bool) else QVariant.String
                kinds[name] = kind if kinds.get(name, kind) == kind else QVariant.String
        fields = QgsFields()
        for name, kind in kinds.items():
            fields.append(QgsField(name, kind))
        return fields

    @staticmethod
    def feature_of(fault, fields):
        feature = QgsFeature(fields)
        for at, field in enumerate(fields):
            value = fault["properties"].get(field.name())
            if field.type() == QVariant.String and value is not None and not isinstance(value, str):
                value = json.dumps(value)
            feature.setAttribute(at, value)
        x, y = fault["geometry"]["coordinates"][:2]
        feature.setGeometry(QgsGeometry.fromPointXY(QgsPointXY(x, y)))
        return feature
