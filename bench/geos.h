// Rings and fields as GEOS holds them, and GEOS's answers to our questions. GEOS takes x east, y north; its rings repeat the first corner. Assumes libgeos with
// its C++ headers.
#pragma once
#include <geos_c.h>

#include <geos/algorithm/PointLocation.h>
#include <geos/algorithm/locate/SimplePointInAreaLocator.h>
#include <geos/geom/Coordinate.h>
#include <geos/geom/CoordinateArraySequence.h>
#include <geos/geom/Location.h>

#include "field_shapes.h"
#include "report.h"

// The answers, numbered as the exports number ours.
enum { OPEN = 0, BORDER = 1, SHUT = 2, CROSSED = 3 };

static inline int answer_of(geos::geom::Location found) {
    using geos::geom::Location;
    return found == Location::INTERIOR ? OPEN : found == Location::BOUNDARY ? BORDER : SHUT;
}

// A polygon, plain and prepared, and what it answers whether it has holes or not.
class GeosPolygon {
    GEOSGeometry *indexed;
    const GEOSPreparedGeometry *prepared;

  protected:
    GEOSGeometry *polygon;

    static GEOSGeometry *linear_ring_of(const Ring &ring) {
        GEOSCoordSequence *corners = GEOSCoordSeq_create(ring.corners() + 1, 2);
        for (size_t k = 0; k <= ring.corners(); k++) {
            size_t at = 2 * (k % ring.corners());
            GEOSCoordSeq_setXY(corners, k, (double)ring.numbers[at + 1], (double)ring.numbers[at]);
        }
        return GEOSGeom_createLinearRing(corners);
    }

    explicit GeosPolygon(GEOSGeometry *made) : indexed(GEOSGeom_clone(made)), prepared(GEOSPrepare(indexed)), polygon(made) {}

  public:
    GeosPolygon(const GeosPolygon &) = delete;
    ~GeosPolygon() {
        GEOSPreparedGeom_destroy(prepared);
        GEOSGeom_destroy(indexed);
        GEOSGeom_destroy(polygon);
    }

    bool valid() const { return GEOSisValid(polygon) == 1; }

    // GEOS has no test of validity for a prepared geometry; the polygon that was prepared is tested, and the index does not serve it.
    bool prepared_valid() const { return GEOSisValid(indexed) == 1; }

    bool prepared_inside(const GEOSGeometry *point) const { return GEOSPreparedContains(prepared, point) == 1; }

    // The border is what the polygon meets and does not contain.
    int prepared_place(const GEOSGeometry *point) const {
        if (prepared_inside(point)) return OPEN;
        return GEOSPreparedIntersects(prepared, point) == 1 ? BORDER : SHUT;
    }
};

class GeosRing : public GeosPolygon {
    geos::geom::CoordinateArraySequence sequence;

    static geos::geom::CoordinateArraySequence sequence_of(const Ring &ring) {
        std::vector<geos::geom::Coordinate> list;
        for (const Place &corner : corners_of(ring)) list.emplace_back((double)corner.y, (double)corner.x);
        list.push_back(list[0]);
        return geos::geom::CoordinateArraySequence(std::move(list));
    }

  public:
    explicit GeosRing(const Ring &ring) : GeosPolygon(GEOSGeom_createPolygon(linear_ring_of(ring), nullptr, 0)), sequence(sequence_of(ring)) {}

    // GEOS's own point in ring, in doubles and without an index: inside, border or outside in one pass.
    int place(const Place &at) const {
        return answer_of(geos::algorithm::PointLocation::locateInRing(geos::geom::Coordinate((double)at.y, (double)at.x), sequence));
    }

    int nozzle(const Place &at) const { return valid() ? place(at) : CROSSED; }
};

class GeosField : public GeosPolygon {
    static GEOSGeometry *polygon_of(const Field &field) {
        std::vector<GEOSGeometry *> holes;
        for (size_t k = 1; k < field.rings.size(); k++) holes.push_back(linear_ring_of(field.rings[k]));
        return GEOSGeom_createPolygon(linear_ring_of(field.rings[0]), holes.data(), holes.size());
    }

  public:
    explicit GeosField(const Field &field) : GeosPolygon(polygon_of(field)) {}

    // GEOS's own point in polygon, without an index: it passes over the holes whose box has not the point. The geometry of its C calls is that of C++ under
    // another name.
    int place(const Place &at) const {
        using geos::algorithm::locate::SimplePointInAreaLocator;
        const geos::geom::Coordinate point((double)at.y, (double)at.x);
        return answer_of(SimplePointInAreaLocator::locate(point, reinterpret_cast<const geos::geom::Geometry *>(polygon)));
    }
};

// Places as GEOS's points, made before anything is timed.
class GeosPoints {
    std::vector<GEOSGeometry *> points;

  public:
    explicit GeosPoints(const std::vector<Place> &places) {
        for (const Place &at : places) points.push_back(GEOSGeom_createPointFromXY((double)at.y, (double)at.x));
    }
    GeosPoints(const GeosPoints &) = delete;
    ~GeosPoints() {
        for (GEOSGeometry *point : points) GEOSGeom_destroy(point);
    }
    const GEOSGeometry *operator[](size_t k) const { return points[k]; }
};
