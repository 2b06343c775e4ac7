package library;

/** Unwinds the frames of a folder whose run is over. */
final class Over extends Error {
    Over() {
        super(null, null, false, false);
    }
}
