/**
 * The hooks of a queue, which threads call before a take, before an offer and after a failed offer. The executor is unmodified.
 */
interface Moments {
    /**
     * The decision about a take: the head of the queue, nothing as if the worker's time were over, or whatever Java's own queue
     * returns.
     */
    enum Taking { HEAD, NOTHING, AS_EVER }

    default Taking beforeTaking(boolean timed) throws InterruptedException {
        return Taking.AS_EVER;
    }

    default void beforeOffer() {}

    default void afterFailedOffer() {}
}
