package jcompat;

import java.util.List;

/** What a run over two releases found: the comparisons, the Java that the new release asks for, and the status of all. */
final class Outcome {
    final Request request;
    final World world;
    /** As <code>--from 1.0.0 --to 1.1.0</code>, or nothing. */
    final List<String> versions;
    final Jdk jdk;
    final List<Comparison> comparisons;
    final Javas oldJavas;
    final Javas newJavas;
    /** What the new release asks of a Java that the old one didn't, in words. */
    final List<String> needs;
    int status;
    Sources sources;
    /** Which version number is due, where that is asked for; or null. */
    Due due;

    Outcome(Request request, World world, List<String> versions, Jdk jdk, List<Comparison> comparisons, int status) {
        this.request = request;
        this.world = world;
        this.versions = versions;
        this.jdk = jdk;
        this.comparisons = comparisons;
        this.status = status;
        oldJavas = world.releases.get(0).javas();
        newJavas = world.releases.get(1).javas();
        needs = Javas.needs(oldJavas, newJavas);
    }

    /** Asks whether the new release runs on the Java that was named. */
    void judgeJava(Host host) {
        String refused = request.java == 0 ? null : newJavas.refused(request.java);
        if (refused != null) {
            host.say(refused);
            status = Status.greater(status, Status.NEEDS_JAVA);
        }
    }

    /** As <code>1.0.0</code>, or null: of the old release the index 0, of the new one 1. */
    String version(int index) {
        return versions.isEmpty() ? null : versions.get(2 * index + 1);
    }
}
