/** A recorder of the use of thread pools by a service, and a check of live executors against a plan. */
module sizing {
    exports sizing;
}
