package jcompat;

import java.io.IOException;
import java.nio.file.Path;

/** What one or several comparisons of a run share: the cache, the JDK, its classes and the program. */
final class Workspace implements AutoCloseable {
    final Cache cache;
    final Jdk jdk;
    private Platform platform;

    Workspace(Path cache, Path jdk) throws Stop {
        this.jdk = new Jdk(jdk);
        this.cache = new Cache(cache);
    }

    /** The classes of the JDK, which are unpacked where they aren't kept. */
    synchronized Platform platform(Host host) throws IOException, Stop {
        if (platform == null) {
            platform = Platform.of(jdk, cache, host);
        }
        return platform;
    }

    /** Looks over the classes that are kept, while something else is done. */
    void lookEarly(Host host) {
        Thread early = new Thread(() -> {
            try {
                platform(host);
            } catch (IOException | Stop later) {
                // it comes again where the platform is asked for
            }
        });
        early.setDaemon(true);
        if (Platform.isKept(jdk, cache)) {
            early.start();
        }
    }

    @Override
    public void close() throws IOException {
        cache.close();
        jdk.close();
    }
}
