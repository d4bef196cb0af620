"""A Processing script of QGIS: carries layers through a triangulation by tinmove.

All layers go in one run, so that they are compared with each other. The result is a GeoPackage with
a layer for each, under its name, with its attributes and heights, and with the points of the changes,
tinmove_changes: the relation before and after, and the layer and feature id on both sides. Curves and
measures are refused: the algorithms 'Segmentize' and 'Drop M/Z values' come before. A carried layer
that is named tinmove_changes itself is tinmove_changes_2 in the result.

To use it: Processing toolbox, Scripts, Add Script to Toolbox. The programs tinmove and tinplaces must
be on the PATH, or in the folder that is named.
"""
import bisect
import json
import os
import re
import shutil
import subprocess
import tempfile

from qgis.core import (
    QgsFeature,
    QgsFeatureRequest,
    QgsField,
    QgsFields,
    QgsGeometry,
    QgsPointXY,
    QgsProcessing,
    QgsProcessingAlgorithm,
    QgsProcessingContext,
    QgsProcessingException,
    QgsProcessingOutputNumber,
    QgsProcessingParameterBoolean,
    QgsProcessingParameterCrs,
    QgsProcessingParameterFile,
    QgsProcessingParameterFileDestination,
    QgsProcessingParameterMultipleLayers,
    QgsProcessingParameterString,
    QgsVectorFileWriter,
    QgsVectorLayerFeatureSource,
    QgsWkbTypes,
)
from qgis.PyQt.QtCore import QVariant

CHANGES = "tinmove_changes"
FACTS = (
    ("was", QVariant.String),
    ("now", QVariant.String),
    ("gap_mm", QVariant.LongLong),
    ("first_layer", QVariant.String),
    ("first_fid", QVariant.LongLong),
    ("second_layer", QVariant.String),
    ("second_fid", QVariant.LongLong),
)


class Source:
    """A layer as it was when the algorithm began, so that another thread may read it."""

    def __init__(self, layer, only_selected, used):
        self.name, self.fields, self.kind = layer.name(), layer.fields(), layer.wkbType()
        self.rows = QgsVectorLayerFeatureSource(layer)
        self.ids = layer.selectedFeatureIds() if only_selected else None
        stem = re.sub(r"^-|[/\x00-\x1f\x7f-\x9f]", "_", self.name).encode()[:200].decode(errors="ignore")
        self.file, number = f"{stem}.wkt", 2
        self.title = self.name
        while self.file.lower() in used:
            self.file, self.title, number = f"{stem}_{number}.wkt", f"{self.name}_{number}", number + 1
        used.add(self.file.lower())
        self.features, self.starts = [], []

    def write(self, folder):
        """The geometries, one a line; a blank line is a feature that has none."""
        request = QgsFeatureRequest() if self.ids is None else QgsFeatureRequest().setFilterFids(self.ids)
        self.features = sorted(self.rows.getFeatures(request), key=lambda it: it.id())
        with open(os.path.join(folder, self.file), "wb") as file:
            for feature in self.features:
                self.starts.append(file.tell())
                file.write(self.text_of(feature).encode() + b"\n")

    def text_of(self, feature):
        if not feature.hasGeometry():
            return ""
        kind = feature.geometry().wkbType()
        if QgsWkbTypes.isCurvedType(kind) or QgsWkbTypes.hasM(kind):
            raise QgsProcessingException(
                f"{self.name}, feature {feature.id()}: {QgsWkbTypes.displayString(kind)}: "
                "use 'Segmentize' or 'Drop M/Z values' before"
            )
        # QGIS glues the mark of heights to the word.
        return re.sub(r"([A-Za-z])Z(?=[ (])", r"\1 Z", feature.geometry().asWkt(8))


class CarryLayers(QgsProcessingAlgorithm):
    def createInstance(self):
        return CarryLayers()

    def name(self):
        return "tinmove_carry_layers"

    def displayName(self):
        return "Carry layers (tinmove)"

    def group(self):
        return "Frames"

    def groupId(self):
        return "frames"

    def shortHelpString(self):
        return __doc__

    def initAlgorithm(self, config=None):
        add = self.addParameter
        add(QgsProcessingParameterMultipleLayers("LAYERS", "Layers", QgsProcessing.TypeVectorAnyGeometry))
        add(QgsProcessingParameterBoolean("SELECTED", "Selected features only", False))
        add(QgsProcessingParameterFile("TIN", "Triangulation (tinshift)", extension="json"))
        add(QgsProcessingParameterCrs("CRS", "Frame of the result", defaultValue="EPSG:2056"))
        add(QgsProcessingParameterBoolean("INVERSE", "From the target frame to the source frame", False))
        folder = "Folder of the programs, where they are not on the PATH"
        add(QgsProcessingParameterString("FOLDER", folder, "", optional=True))
        add(QgsProcessingParameterBoolean("LOAD", "Load the layers that are written", True))
        add(QgsProcessingParameterFileDestination("OUTPUT", "Carried layers", "GeoPackage (*.gpkg)"))
        self.addOutput(QgsProcessingOutputNumber("CHANGES", "Number of changes"))

    def prepareAlgorithm(self, parameters, context, feedback):
        layers = self.parameterAsLayerList(parameters, "LAYERS", context)
        # The layer of the changes has this name.
        only_selected, used = self.parameterAsBool(parameters, "SELECTED", context), {f"{CHANGES}.wkt"}
        self.sources = [Source(it, only_selected, used) for it in layers]
        if not self.sources:
            raise QgsProcessingException("no layer is chosen")
        return True

    def call(self, name, words, allowed, feedback):
        """Runs a program in the folder of the layers, until it ends or the user cancels."""
        program = os.path.join(self.programs, name) if self.programs else name
        feedback.pushCommandInfo(" ".join([program, *words]))
        with tempfile.TemporaryFile() as said, tempfile.TemporaryFile() as remarks:
            try:
                run = subprocess.Popen([program, *words], cwd=self.folder, stdout=said, stderr=remarks, stdin=subprocess.DEVNULL)
            except OSError as error:
                raise QgsProcessingException(f"{program}: {error.strerror}") from error
            while run.poll() is None:
                if feedback.isCanceled():
                    run.kill()
                    run.wait()
                    raise QgsProcessingException(f"cancelled: {name} was ended, and nothing is written")
                try:
                    run.wait(0.1)
                except subprocess.TimeoutExpired:
                    pass
            texts = []
            for file in (said, remarks):
                file.seek(0)
                texts.append(file.read().decode(errors="replace"))
        for line in texts[1].splitlines():
            feedback.pushInfo(line)
        if run.returncode not in allowed:
            raise QgsProcessingException(self.refusal(run.returncode, *texts))
        return run.returncode, texts[0]

    def refusal(self, status, said, remarks):
        """The lines of the program, and which feature they speak of."""
        lines = said.splitlines()[:1] + remarks.splitlines()
        for source in self.sources:
            where = rf"^tinmove: {re.escape(source.file)}:(?:([0-9]+):|(?:.*\n)*?tinmove: it is on line ([0-9]+),)"
            found = re.search(where, remarks, re.MULTILINE)
            line = int(found[1] or found[2]) if found else 0
            if 0 < line <= len(source.features):
                lines.append(f"line {line} is the feature {source.features[line - 1].id()} of {source.name}")
        return "\n".join(lines) or f"the program ended with status {status}"

    def processAlgorithm(self, parameters, context, feedback):
        crs = self.parameterAsCrs(parameters, "CRS", context)
        output = self.parameterAsFileOutput(parameters, "OUTPUT", context)
        tin = os.path.abspath(self.parameterAsFile(parameters, "TIN", context))
        named = self.parameterAsString(parameters, "FOLDER", context)
        self.programs = os.path.abspath(named) if named else ""
        options = ["--tin", tin]
        if self.parameterAsBool(parameters, "INVERSE", context):
            options.append("--inverse")
        with tempfile.TemporaryDirectory(prefix="tinmove-") as self.folder:
            for source in self.sources:
                source.write(self.folder)
            feedback.setProgress(25)
            files = [it.file for it in self.sources]
            status, report = self.call("tinmove", ["migrate", *options, "--out", "out", "--", *files], (0, 1), feedback)
            for line in report.splitlines():
                if not line.startswith("change "):
                    feedback.pushInfo(line)
            feedback.setProgress(50)
            changes = []
            if status == 1:
                text = self.call("tinplaces", [*options, "--", *files], (0, 1), feedback)[1]
                changes = json.loads(text)["features"]
            feedback.setProgress(75)
            whole = os.path.join(self.folder, "whole.gpkg")
            for number, source in enumerate(self.sources):
                self.write_layer(whole, source, crs, context, number == 0)
            self.write_changes(whole, changes, crs, context)
            # The result has its name only when it is whole.
            part = output + ".part"
            shutil.copyfile(whole, part)
            os.replace(part, output)
        if changes:
            feedback.pushWarning(f"{len(changes)} pairs of pieces are related in another way than before: see {CHANGES}")
        if self.parameterAsBool(parameters, "LOAD", context) and context.project():
            for name in [it.title for it in self.sources] + [CHANGES]:
                details = QgsProcessingContext.LayerDetails(name, context.project(), name)
                context.addLayerToLoadOnCompletion(f"{output}|layername={name}", details)
        return {"OUTPUT": output, "CHANGES": len(changes)}

    def writer(self, name, layer, fields, kind, crs, context, is_first):
        options = QgsVectorFileWriter.SaveVectorOptions()
        options.driverName, options.layerName = "GPKG", layer
        options.actionOnExistingFile = (
            QgsVectorFileWriter.CreateOrOverwriteFile if is_first else QgsVectorFileWriter.CreateOrOverwriteLayer
        )
        made = QgsVectorFileWriter.create(name, fields, kind, crs, context.transformContext(), options)
        if made.hasError() != QgsVectorFileWriter.NoError:
            raise QgsProcessingException(f"{layer}: {made.errorMessage()}")
        return made

    def write_layer(self, name, source, crs, context, is_first):
        made = self.writer(name, source.title, source.fields, source.kind, crs, context, is_first)
        with open(os.path.join(self.folder, "out", source.file), encoding="utf-8", newline="\n") as lines:
            for feature, line in zip(source.features, lines):
                carried = QgsFeature(feature)
                if feature.hasGeometry():
                    carried.setGeometry(QgsGeometry.fromWkt(line.strip()))
                if not made.addFeature(carried):
                    raise QgsProcessingException(f"{source.name}, feature {feature.id()}: {made.errorMessage()}")
        del made

    def write_changes(self, name, changes, crs, context):
        fields = QgsFields()
        for it in FACTS:
            fields.append(QgsField(*it))
        made = self.writer(name, CHANGES, fields, QgsWkbTypes.Point, crs, context, False)
        for change in changes:
            own, mark = change["properties"], QgsFeature(fields)
            values = [own["was"], own["now"], own.get("gap_mm")]
            for side in ("first", "second"):
                source = self.sources[int(own[side].split("/")[0])]
                at = bisect.bisect_right(source.starts, own[side + "_at"]) - 1
                values += [source.title, source.features[at].id()]
            mark.setAttributes(values)
            mark.setGeometry(place_of(change["geometry"]))
            if not made.addFeature(mark):
                raise QgsProcessingException(f"{CHANGES}: {made.errorMessage()}")
        del made


def place_of(geometry):
    """The point of a change: as it is given, or the written end that is nearest to the other segment."""
    if geometry["type"] == "Point":
        return QgsGeometry.fromPointXY(QgsPointXY(*geometry["coordinates"][:2]))
    if geometry["type"] == "MultiLineString":
        parts = geometry["coordinates"]
    else:
        parts = [it["coordinates"] if it["type"] != "Point" else [it["coordinates"]] for it in geometry["geometries"]]
    ends = []
    for part, other in (parts, reversed(parts)):
        line = [QgsPointXY(*it[:2]) for it in other]
        line = QgsGeometry.fromPolylineXY(line) if len(line) > 1 else QgsGeometry.fromPointXY(line[0])
        for place in part:
            point = QgsGeometry.fromPointXY(QgsPointXY(*place[:2]))
            ends.append((point.distance(line), len(ends), point))
    return min(ends, key=lambda it: it[:2])[2]
