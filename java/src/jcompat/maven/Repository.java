package jcompat.maven;

import java.io.File;
import java.util.ArrayList;
import java.util.Collections;
import java.util.List;
import java.util.regex.Pattern;
import java.util.stream.Collectors;

import org.apache.maven.plugin.MojoExecutionException;
import org.eclipse.aether.DefaultRepositorySystemSession;
import org.eclipse.aether.RepositoryException;
import org.eclipse.aether.RepositorySystem;
import org.eclipse.aether.RepositorySystemSession;
import org.eclipse.aether.artifact.Artifact;
import org.eclipse.aether.artifact.DefaultArtifact;
import org.eclipse.aether.collection.CollectRequest;
import org.eclipse.aether.graph.Dependency;
import org.eclipse.aether.repository.RemoteRepository;
import org.eclipse.aether.repository.RepositoryPolicy;
import org.eclipse.aether.resolution.ArtifactDescriptorRequest;
import org.eclipse.aether.resolution.ArtifactDescriptorResult;
import org.eclipse.aether.resolution.ArtifactRequest;
import org.eclipse.aether.metadata.Metadata;
import org.eclipse.aether.resolution.DependencyRequest;
import org.eclipse.aether.resolution.ResolutionErrorPolicy;
import org.eclipse.aether.resolution.ResolutionErrorPolicyRequest;
import org.eclipse.aether.resolution.VersionRangeRequest;
import org.eclipse.aether.resolution.VersionRangeResult;
import org.eclipse.aether.transfer.MetadataNotFoundException;
import org.eclipse.aether.version.Version;

/** The earlier releases of a project, as its repositories have them. */
final class Repository {
    private static final Pattern UNFINISHED = Pattern.compile("(?i).*(-SNAPSHOT|[.-](alpha|beta|rc|cr|m|milestone|preview|ea|pre)[.-]?\\d*)$");

    private final RepositorySystem system;
    private final RepositorySystemSession session;
    private final List<RemoteRepository> repositories;

    Repository(RepositorySystem system, RepositorySystemSession given, List<RemoteRepository> repositories) {
        this.system = system;
        // that a repository had no release yesterday, which Maven keeps for a day, would pass today's break
        DefaultRepositorySystemSession fresh = new DefaultRepositorySystemSession(given);
        fresh.setUpdatePolicy(RepositoryPolicy.UPDATE_POLICY_ALWAYS);
        fresh.setResolutionErrorPolicy(new NothingKept());
        session = fresh;
        this.repositories = repositories;
    }

    /** The releases below the artifact's own version, the oldest first, without unfinished ones. */
    List<String> below(Artifact artifact) throws MojoExecutionException {
        VersionRangeRequest request = new VersionRangeRequest(artifact.setVersion("(," + artifact.getVersion() + ")"), repositories, null);
        try {
            VersionRangeResult found = system.resolveVersionRange(session, request);
            List<Exception> failures = found.getExceptions().stream().filter(failure -> !(failure instanceof MetadataNotFoundException)).collect(Collectors.toList());
            List<String> versions = found.getVersions().stream().map(Version::toString).filter(version -> !UNFINISHED.matcher(version).matches()).collect(Collectors.toList());
            if (versions.isEmpty() && (!failures.isEmpty() || session.isOffline())) {
                throw new MojoExecutionException("the repositories couldn't be asked for releases of " + artifact.getGroupId() + ":" + artifact.getArtifactId()
                        + " below " + artifact.getVersion() + (session.isOffline() ? ", since Maven is offline" : ": " + failures.get(0).getMessage())
                        + "; name one by -Djcompat.baseline=VERSION, or skip the check by -Djcompat.skip");
            }
            return versions;
        } catch (RepositoryException failure) {
            throw new MojoExecutionException(failure.getMessage(), failure);
        }
    }

    File file(Artifact artifact) throws MojoExecutionException {
        try {
            return system.resolveArtifact(session, new ArtifactRequest(artifact, repositories, null)).getArtifact().getFile();
        } catch (RepositoryException failure) {
            throw new MojoExecutionException("the release " + artifact + " can't be had: " + failure.getMessage(), failure);
        }
    }

    /** What an earlier release needs, since it may need what the new one no longer does; but for tests. */
    List<File> needed(Artifact artifact) throws RepositoryException {
        ArtifactDescriptorResult of = system.readArtifactDescriptor(session, new ArtifactDescriptorRequest(artifact, repositories, null));
        List<Dependency> direct = of.getDependencies().stream().filter(each -> !each.getScope().equals("test") && !each.isOptional()).collect(Collectors.toList());
        if (direct.isEmpty()) {
            return Collections.emptyList();
        }
        CollectRequest collect = new CollectRequest(direct, of.getManagedDependencies(), repositories);
        List<File> files = new ArrayList<>();
        system.resolveDependencies(session, new DependencyRequest(collect, null)).getArtifactResults().forEach(result -> files.add(result.getArtifact().getFile()));
        return files;
    }

    static Artifact of(org.apache.maven.artifact.Artifact artifact) {
        return new DefaultArtifact(artifact.getGroupId(), artifact.getArtifactId(), artifact.getClassifier(),
                artifact.getArtifactHandler().getExtension(), artifact.getVersion());
    }

    /** That something wasn't found isn't kept. Plugins see the interfaces of the resolver alone, and not its classes for this. */
    private static final class NothingKept implements ResolutionErrorPolicy {
        @Override
        public int getArtifactPolicy(RepositorySystemSession any, ResolutionErrorPolicyRequest<Artifact> request) {
            return CACHE_DISABLED;
        }

        @Override
        public int getMetadataPolicy(RepositorySystemSession any, ResolutionErrorPolicyRequest<Metadata> request) {
            return CACHE_DISABLED;
        }
    }
}
